"""What tests/browser looks at on the page of tools/theorem: links, search, widths and colours."""
import base64
import hashlib
import os
import struct
import subprocess
import time
import zlib

from lib.chromium import CONTRAST
from lib.common import TOP

PAGE = "theorem.html"
PICTURE = os.path.join(TOP, "docs", "figures", "theorem.png")
# What the picture of the page shows: the counts, a fault of a script, and what one of its names stands for.
SHOWN = """
const texts = ['nav > p', 'article:target', '#side article'].map(it => document.querySelector(it)?.innerText ?? '');
return [...document.querySelectorAll('nav a')].map(a => a.parentElement.innerText).concat(texts).join('\\n');
"""
TEXTS = "nav a,nav small,section > p,h2,h3,article p,article pre,article pre a,summary"
# The marks that no link of the page may miss, and how many stand there twice.
LOOSE = """
const ids = [...document.querySelectorAll('[id]')].map(e => e.id), there = new Set(ids);
const links = [...document.querySelectorAll('a[href^="#"]')].map(a => decodeURIComponent(a.hash.slice(1)));
return [links.filter(id => !there.has(id)).slice(0, 3), ids.length - there.size, links.length];
"""
# The middle of the first link of this name within an element, once that link stands in the window.
MIDDLE = """
const a = [...document.querySelectorAll('{within} a')].find(a => a.textContent === '{name}');
a.scrollIntoView({{block: 'center'}});
const r = a.getClientRects()[0];
return [r.left + r.width / 2, r.top + r.height / 2];
"""
# Where the page is, what stands there, and whether it stands in the window.
AT = """
const it = document.querySelector('article:target'), r = it?.getBoundingClientRect();
return [decodeURIComponent(location.hash), it?.querySelector('pre').textContent ?? '', !!r && r.top > -2 && r.top < innerHeight];
"""


def write(folder):
    """Makes the page."""
    text = subprocess.run([os.path.join(TOP, "tools", "theorem"), "--page"], stdout=subprocess.PIPE, check=True).stdout
    with open(os.path.join(folder, PAGE), "wb") as file:
        file.write(text)


def stands_at(page, mark, text):
    """What is wrong where the page must be at a mark, before which nothing of its text is hidden."""
    for _ in range(50):
        told = page.run(AT)
        if told[0] == mark and told[2]:
            break
        time.sleep(0.1)
    if told[0] != mark or text not in told[1] or not told[2]:
        yield f"the page is at {told[0]} and not at {mark}, or does not show it: {told[1][:40]!r}"


def shown(page, text):
    """What is wrong where the panel must show this text."""
    for _ in range(50):
        told = page.run("return document.querySelector('#side article pre')?.textContent ?? ''")
        if told:
            break
        time.sleep(0.1)
    if text not in told:
        yield f"the panel shows {told[:40]!r}"


def theorem_links(place):
    """A citation leads to its definition, that one's list of citations leads back, and so does the browser's own key. No
    link leads nowhere, nothing is loaded, and the console has no complaint."""
    page = place.open(page=PAGE)
    missing, twice, count = page.run(LOOSE)
    if missing or twice or not count:
        yield f"of {count} links {missing} lead nowhere; {twice} marks stand twice"
    page.click(*page.run(MIDDLE.format(within="article pre", name="Ends")))
    wrong = list(stands_at(page, "#liq_cli.Call.Ends", "record Ends"))
    if wrong:
        return (yield from wrong)
    page.run("document.querySelector('article:target details').open = true")
    page.click(*page.run(MIDDLE.format(within="article:target details", name="liq")))
    yield from stands_at(page, "#liq_cli.call.liq", "pub fn liq")
    page.run("history.back()")
    yield from stands_at(page, "#liq_cli.Call.Ends", "record Ends")
    if page.run("return performance.getEntriesByType('resource').length"):
        yield "something is loaded"
    yield from page.complaints()


def theorem_panel(place):
    """A name that the mouse points at stands in the panel."""
    page = place.open(page=PAGE)
    x, y = page.run(MIDDLE.format(within="article pre", name="IsComplete"))
    page.move(x - 200, y)
    page.move(x, y)
    yield from shown(page, "IsComplete :")


def theorem_words(place):
    """A name of the standard library shows its line in the panel, which has the signs before that. A word of a comment is
    found, and each chapter says what it makes of both scripts."""
    page = place.open(page=PAGE)
    if "both A and B" not in page.run("return document.getElementById('side').textContent"):
        yield "the panel begins without the signs"
    x, y = page.run(MIDDLE.format(within="article pre", name="ForSome"))
    page.move(x - 200, y)
    page.move(x, y)
    yield from shown(page, "ForSome o P")
    page.press("/")
    page.type("refused memory is not")
    names = page.run("return [...document.querySelectorAll('#hits a')].map(a => a.firstChild.textContent)")
    if names != ["NoMemory"]:
        yield f"found {names}"
    bare = page.run("return [...document.querySelectorAll('h2')].filter(h => h.parentElement.querySelectorAll('.two dd').length !== 2).map(h => h.id)")
    if bare:
        yield f"the scripts are not followed in {bare}"


def theorem_finger(place):
    """On a phone the touch of a name shows it below, and the link in that panel goes there."""
    place.browser.command("Emulation.setTouchEmulationEnabled", enabled=True)
    page = place.open(375, PAGE, touch=True)
    page.touch(*page.run(MIDDLE.format(within="article pre", name="IsComplete")))
    wrong = list(shown(page, "IsComplete :")) + (["the first touch goes on"] if page.run("return location.hash") else [])
    if not wrong:
        page.touch(*page.run(MIDDLE.format(within="#side h4", name="Go there")))
        wrong = list(stands_at(page, "#liq_cli.Call.IsComplete", "IsComplete :"))
    page.command("Emulation.setTouchEmulationEnabled", enabled=False)
    yield from wrong


def theorem_search(place):
    """The key / goes to the field, a name is found by its first letters, and Enter goes to it."""
    page = place.open(page=PAGE)
    page.press("/")
    page.type("max_wo")
    names = page.run("return [...document.querySelectorAll('#hits a')].map(a => a.firstChild.textContent)")
    if names != ["MAX_WORK"]:
        yield f"found {names}"
    page.press("Enter")
    yield from stands_at(page, "#liq_base.limits.MAX_WORK", "const MAX_WORK")


def theorem_looks(place):
    """On a desk and on a phone, light and dark: nothing is wider than the window, text has contrast, and the ground is of
    the colours that the system asks for."""
    for width in (1280, 375):
        for dark in (False, True):
            page, look = place.open(width, PAGE, dark=dark), f"{width} wide, {'dark' if dark else 'light'}"
            whole, window = page.run("return [document.documentElement.scrollWidth, innerWidth]")
            if whole > window:
                yield f"{look}: {whole} are wanted"
            ratio, where = page.run(CONTRAST.replace("TEXTS", TEXTS))
            if ratio < 4.5:
                yield f"{look}: contrast {ratio:.1f} at {where}"
            ground = page.run("return getComputedStyle(document.body).backgroundColor.match(/\\d+/g).map(Number)")
            if dark != (max(ground[:3]) < 128):
                yield f"{look}: the ground is {ground}"


def chunks(data):
    """The chunks of a PNG: where each begins, its name and what it holds."""
    at = 8
    while at < len(data):
        length, name = struct.unpack_from(">I4s", data, at)
        yield at, name, data[at + 8:at + 8 + length]
        at += 12 + length


def marked(data, text):
    """The bytes of a PNG with a remark before its picture."""
    body = b"tEXt" + b"Comment\0" + text.encode()
    first = next(at for at, name, _ in chunks(data) if name == b"IDAT")
    return data[:first] + struct.pack(">I", len(body) - 4) + body + struct.pack(">I", zlib.crc32(body)) + data[first:]


def theorem_picture(place):
    """The picture of docs/figures shows this page: its remark is the digest of the texts that stand there. `tests/browser --draw
    theorem_picture` draws it anew."""
    page = place.open(page=PAGE)
    page.look(1280, 640)
    page.run("location.hash = '#station_jobs.Verdicts.IsScriptFault'")
    wrong = list(stands_at(page, "#station_jobs.Verdicts.IsScriptFault", "IsScriptFault"))
    x, y = page.run("""const r = [...document.querySelectorAll('article:target pre a')].find(a => a.textContent === 'HasClash').getClientRects()[0];
                       return [r.left + r.width / 2, r.top + r.height / 2];""")
    page.move(x - 200, y)
    page.move(x, y)
    wrong += list(shown(page, "HasClash"))
    text = f"tests/browser {hashlib.sha256(page.run(SHOWN).encode()).hexdigest()}"
    if place.is_drawn and not wrong:
        data = base64.b64decode(page.command("Page.captureScreenshot")["data"])
        with open(PICTURE, "wb") as file:
            file.write(marked(data, text))
    with open(PICTURE, "rb") as file:
        if b"Comment\0" + text.encode() not in [held for _, name, held in chunks(file.read()) if name == b"tEXt"]:
            wrong.append("docs/figures/theorem.png shows another page: --draw draws it anew")
    yield from wrong


RUNS = [theorem_links, theorem_panel, theorem_words, theorem_finger, theorem_search, theorem_looks, theorem_picture]
