"""The page of tools/theorem: one HTML file, in which each name leads to what it stands for."""
import html
import os
import re

from theorem_front import followed_in, front, signs

STYLE = """
:root{color-scheme:light dark;--bg:#fdfdfb;--fg:#1c1d20;--soft:#686b73;--line:#dcdcd6;--code:#f4f4ef;--link:#0b57a4;--mark:#fff2b8;--bar:#fff}
@media(prefers-color-scheme:dark){:root{--bg:#15171b;--fg:#e3e4e6;--soft:#9a9ea8;--line:#32353c;--code:#1d2026;--link:#86b9f5;--mark:#4a4216;--bar:#1a1d22}}
*{box-sizing:border-box}html{scroll-padding-top:1rem}
body{margin:0;background:var(--bg);color:var(--fg);font:16px/1.5 system-ui,sans-serif}
a{color:var(--link);text-decoration:none}a:hover,a:focus-visible{text-decoration:underline}
nav{position:fixed;inset:0 auto 0 0;width:16rem;overflow:auto;padding:1rem;border-right:1px solid var(--line);background:var(--bar);font-size:.9rem}
nav h1{font-size:1.05rem;margin:0 0 .6rem}nav ol{padding-left:1.4rem;margin:.6rem 0}nav li{margin:.15rem 0}nav small{color:var(--soft)}
input{width:100%;font:inherit;padding:.4rem .5rem;border:1px solid var(--line);border-radius:6px;background:var(--bg);color:var(--fg)}
#hits{list-style:none;padding:0;margin:.3rem 0;max-height:60vh;overflow:auto}#hits a{display:block;padding:.2rem .3rem}#hits small{display:block}
#hits a.on{background:var(--mark)}
main{margin:0 min(26rem,28vw) 0 16rem;padding:1rem 2rem 60vh;min-width:0}
main>p:first-child{margin-top:.2rem}
h2{margin:3rem 0 .5rem;font-size:1.4rem}main>:first-child h2{margin-top:0}h3{margin:2.2rem 0 .2rem;font:600 .8rem/1.4 ui-monospace,monospace;color:var(--soft);border-bottom:1px solid var(--line)}
pre{margin:0;font:13px/1.5 ui-monospace,SFMono-Regular,Menlo,Consolas,"DejaVu Sans Mono",monospace;white-space:pre-wrap;overflow-wrap:anywhere;tab-size:4}
article{padding:.55rem .7rem;margin:.5rem 0;background:var(--code);border-radius:6px;border-left:3px solid transparent}
article:target{border-left-color:var(--link);background:var(--mark)}
article p{margin:0 0 .35rem;max-width:46rem;font-size:.95rem}article p.here{margin:.35rem 0 0;font-size:.85rem;color:var(--soft)}
b.of{font-weight:600}
pre .l{display:block;padding-left:var(--n);text-indent:calc(-1*var(--n))}
table{border-collapse:collapse;margin:.6rem 0;font-size:.95rem}th{text-align:left;font-weight:400;padding:.15rem 1rem .15rem 0;white-space:nowrap;vertical-align:top}
td{padding:.15rem 1rem .15rem 0;vertical-align:top}#side table{font-size:.85rem;color:var(--soft)}
#front p,#front li,blockquote{max-width:46rem}#front h4{margin:1.8rem 0 .3rem}#front h5{margin:1rem 0 .2rem;font-size:.85rem;color:var(--fg)}
blockquote{margin:.6rem 0;padding:.1rem 0 .1rem 1rem;border-left:3px solid var(--link)}
#front summary{font-size:1rem;font-weight:600;color:var(--fg);margin-top:1.4rem}
.wide{columns:22rem;column-gap:2rem}.wide li{break-inside:avoid}
article.kit{display:grid;grid-template-columns:17rem 1fr;gap:0 1rem;padding:.12rem .4rem;margin:0;background:none;border-radius:0;color:var(--fg)}
article.kit p{margin:0}article.kit pre{white-space:pre-wrap}article.kit:target{background:var(--mark)}#side article.kit{display:block}
dl.two{display:grid;grid-template-columns:repeat(auto-fit,minmax(min(20rem,100%),1fr));grid-template-rows:auto;gap:0 1.6rem;margin:.8rem 0;padding:.5rem .9rem;
border:1px solid var(--line);border-radius:6px;font-size:.92rem}
.two>div{padding:.2rem 0}.two dt{font-size:.8rem;color:var(--soft)}.two dd{margin:.1rem 0 0}.two code{overflow-wrap:anywhere}
article a.k{color:inherit}article a.k:hover{color:var(--link)}nav a.now{font-weight:600;color:var(--fg)}
details{font-size:.82rem;color:var(--soft);margin-top:.3rem}details summary{cursor:pointer}details a{margin-right:.6rem;white-space:nowrap}
#side{position:fixed;inset:0 0 0 auto;width:min(26rem,28vw);overflow:auto;padding:1rem;border-left:1px solid var(--line);background:var(--bar)}
#side article{background:none;padding:0;border:0}#side h4{margin:0 0 .5rem;font-size:.8rem;color:var(--soft);font-weight:400}
#side .empty{color:var(--soft)}#shut{display:none}
@media(max-width:75rem){main{margin-right:0}#side{inset:auto 0 0 16rem;width:auto;max-height:45vh;border-left:0;border-top:1px solid var(--line);box-shadow:0 -4px 18px #0003;display:none}#side.on{display:block}
#shut{display:block;position:sticky;top:0;float:right;font:inherit;border:1px solid var(--line);border-radius:6px;background:var(--bar);color:var(--fg);padding:.2rem .7rem}}
@media(max-width:48rem){nav{position:static;width:auto;border:0;border-bottom:1px solid var(--line)}nav>details>summary{color:var(--fg);font-size:1rem}
main{margin:0;padding:.6rem .7rem 50vh}#side{inset:auto 0 0 0}article{padding:.5rem;margin:.5rem -.2rem}article.kit{grid-template-columns:1fr;padding:.3rem .2rem}pre{font-size:12px}}
@media(min-width:48.01rem){nav>details>summary{display:none}}
@media print{nav,#side{display:none}main{margin:0}}
"""

SCRIPT = """
const side=document.getElementById('side'),find=document.getElementById('find'),hits=document.getElementById('hits');
const toc=document.getElementById('toc');const wide=matchMedia('(min-width:48.01rem)');
const open=()=>{if(wide.matches)toc.open=true};open();wide.onchange=open;
let shown='',timer=0,at=0;
function show(id){const it=document.getElementById(id);if(!it||id===shown)return;shown=id;
 side.replaceChildren();const shut=document.createElement('button');shut.id='shut';shut.textContent='Close';shut.onclick=()=>{side.classList.remove('on');shown=''};
 const head=document.createElement('h4'),go=document.createElement('a');go.href='#'+id;go.textContent='Go there';go.dataset.go=1;
 head.append(go,' · '+it.dataset.at);const copy=it.cloneNode(true);copy.removeAttribute('id');
 copy.querySelectorAll('details').forEach(d=>d.open=true);side.append(shut,head,copy);side.scrollTop=0;side.classList.add('on')}
const link=e=>e.target.closest?.('article a[href^="#"]')||null;
document.addEventListener('pointerover',e=>{if(e.pointerType!=='mouse')return;const a=link(e);clearTimeout(timer);
 if(a&&!a.closest('#side'))timer=setTimeout(()=>show(decodeURIComponent(a.hash.slice(1))),90)});
document.addEventListener('focusin',e=>{const a=link(e);if(a&&a.matches(':focus-visible')&&!a.closest('#side'))show(decodeURIComponent(a.hash.slice(1)))});
const finger=e=>e.pointerType?e.pointerType==='touch':matchMedia('(hover:none)').matches;
document.addEventListener('click',e=>{const a=link(e);if(!a)return;
 if(finger(e)||a.closest('#side')){e.preventDefault();show(decodeURIComponent(a.hash.slice(1)))}});
const names=[...document.querySelectorAll('article[id]')].flatMap(it=>it.dataset.names.split(' ').map((n,k)=>({n,id:it.id,at:it.dataset.at,own:k,
 said:k?'':(it.querySelector('p')?.textContent??'').toLowerCase()})));
function look(){const q=find.value.trim().toLowerCase();at=0;hits.replaceChildren();if(!q)return;
 const rank=x=>{const n=x.n.toLowerCase();return (n===q?0:n.startsWith(q)?1:n.includes(q)?2:q.length>2&&x.said.includes(q)?3:9)};
 names.filter(x=>rank(x)<9).sort((a,b)=>rank(a)-rank(b)||a.own-b.own||a.n.length-b.n.length).slice(0,60).forEach(x=>{
  const li=document.createElement('li'),a=document.createElement('a'),s=document.createElement('small');
  a.href='#'+x.id;a.textContent=x.n;s.textContent=x.at;a.append(s);li.append(a);hits.append(li)});mark()}
const heads=[...document.querySelectorAll('h2[id]')],entry=id=>document.querySelector(`#toc ol a[href="#${id}"]`);
if(heads.length>1){let last=null;const see=()=>{const h=heads.filter(h=>h.getBoundingClientRect().top<120).pop()||heads[0];if(h===last)return;
 entry(last?.id)?.classList.remove('now');entry(h.id)?.classList.add('now');last=h};addEventListener('scroll',see,{passive:true});see()}
function mark(){[...hits.querySelectorAll('a')].forEach((a,k)=>a.classList.toggle('on',k===at))}
find.addEventListener('input',look);
find.addEventListener('keydown',e=>{const all=hits.querySelectorAll('a');
 if(e.key==='ArrowDown'||e.key==='ArrowUp'){e.preventDefault();at=Math.max(0,Math.min(all.length-1,at+(e.key==='ArrowDown'?1:-1)));mark();all[at]?.scrollIntoView({block:'nearest'})}
 if(e.key==='Enter'&&all[at]){location.hash=all[at].hash;find.blur()}
 if(e.key==='Escape'){find.value='';look();find.blur()}});
hits.addEventListener('click',e=>{const a=e.target.closest('a');if(a&&!wide.matches){toc.open=false}});
document.addEventListener('keydown',e=>{if(e.key==='/'&&document.activeElement!==find){e.preventDefault();find.focus();find.select()}
 if(e.key==='Escape'){side.classList.remove('on');shown=''}});
"""


def linked(unit, marks, places, start):
    """The code of a text behind its comment, with a link for each name, and its own names bold."""
    parts, at = [], start
    own = re.compile(r"(?<![\w.])(%s)(?![\w'])" % "|".join(map(re.escape, unit.names[:1]))) if unit.names else None
    seen = False
    for begin, end, there, _ in marks:
        if begin < at:
            continue
        parts.append(html.escape(unit.text[at:begin], quote=False))
        word = html.escape(unit.text[begin:end], quote=False)
        if there is unit:
            parts.append(word if seen or not own or not own.fullmatch(unit.text[begin:end]) else f"<b class=of>{word}</b>")
            seen = True
        else:
            place = there if isinstance(there, str) else places.get(id(there))
            parts.append(f'<a{" class=k" if place == there else ""} href="#{html.escape(place)}">{word}</a>' if place else word)
        at = end
    return "".join(parts) + html.escape(unit.text[at:].rstrip(), quote=False)


def hanging(code):
    """The lines of a code, each of which goes on further to the right than it begins where it is too long for the page."""
    lines = [(len(line) - len(line.lstrip(" ")), line) for line in code.split("\n")]
    return "".join(f'<span class=l style="--n:{min(indent, 24) + 2}ch">{line}\n</span>' for indent, line in lines)


def comment_of(unit):
    """The comment before a text, as prose, and where its code begins."""
    rows, size = [], 0
    for row in unit.text.split("\n"):
        if not row.startswith(("--", "///")) or row.startswith("-- ---"):
            break
        rows.append(row.lstrip("-/").strip())
        size += len(row) + 1
    return " ".join(rows), size


def prose(text):
    return re.sub(r"`([^`]+)`", r"<code>\1</code>", html.escape(text, quote=False))


def place_of(unit):
    """The mark of a text on the page: its crate, its file and its name, which stay when others come before it."""
    return f"{unit.path.split('/')[1]}.{os.path.splitext(os.path.basename(unit.path))[0]}.{unit.names[0]}"


def page(chapters, marks_of, comments_of, counted):
    """The page of chapters: each a title, what it says, and its texts."""
    units = [unit for _, _, found in chapters for unit in found]
    places = {id(unit): place_of(unit) for unit in units}
    marks = {id(unit): marks_of(unit) for unit in units}
    cited = {}
    for unit in units:
        for there in {id(it[2]) for it in marks[id(unit)] if not isinstance(it[2], str)} - {id(unit)}:
            cited.setdefault(there, []).append(unit)
    rows, toc = [], []
    for number, (title, text, found) in enumerate(chapters, 1):
        rows.append("<section>")
        if title:
            toc.append(f'<li><a href="#c{number}">{html.escape(title)}</a> <small title="definitions">{len(found)}</small></li>')
            rows.append(f'<h2 id="c{number}">{number}. {html.escape(title)}</h2><p>{prose(text)}</p>{followed_in(title)}')
        path = ""
        for unit in found:
            if unit.path != path:
                path = unit.path
                rows.append(f"<h3>{html.escape(path.removeprefix('crates/'))}</h3>")
            comment, start = comment_of(unit)
            by = "".join(f'<a href="#{places[id(it)]}">{html.escape(it.names[0])}</a>' for it in cited.get(id(unit), []))
            where = f"{path.split('/')[1]}/{os.path.basename(path)}:{unit.line}"
            rows.append(f'<article id="{places[id(unit)]}" data-at="{where}" data-names="{html.escape(" ".join(unit.names))}">'
                        + (f"<p>{prose(comment)}</p>" if comment else "")
                        + f"<pre>{hanging(linked(unit, marks[id(unit)], places, start))}</pre>"
                        + "".join(f'<p class=here>{html.escape(row)}</p>' for row in comments_of(unit))
                        + (f"<details><summary>cited by {len(cited[id(unit)])}</summary>{by}</details>" if by else "") + "</article>")
        rows.append("</section>")
    name, is_whole = units[0].names[0], len(chapters) > 1
    if is_whole:
        by_name = {f"{unit.path.split('/')[1]}::{os.path.splitext(os.path.basename(unit.path))[0]}::{unit.names[0]}": place
                   for unit, place in ((unit, places[id(unit)]) for unit in units)}
        rows.insert(0, front(lambda wanted: by_name.get(wanted, "" if wanted else places[id(units[0])])))
        toc.insert(0, '<li value=0><a href="#c0">What this page says</a></li>')
    return (f'<!DOCTYPE html><html lang=en><meta charset=utf-8><meta name=viewport content="width=device-width,initial-scale=1">'
            f"<title>What is proved of {html.escape(name)}</title><style>{STYLE}</style>"
            f"<nav><h1>What is proved of <code>{html.escape(name)}</code></h1><details id=toc><summary>Contents and search</summary>"
            f'<input id=find type=search placeholder="Find a name or a word ( / )" aria-label="Find a name or a word of its comment" autocomplete=off><ul id=hits></ul>'
            f"<ol>{''.join(toc)}</ol><p><small>{counted}</small></p></details></nav>"
            f"<main>{''.join(rows)}</main>"
            f"<aside id=side aria-live=polite><p class=empty>Point at a name to see here what it stands for; click to go there.</p>"
            f"{signs() if is_whole else ''}</aside>"
            f"<script>{SCRIPT}</script></html>")
