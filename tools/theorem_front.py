"""What stands before the chapters of the theorem's page: the sentence, the statuses, the ten steps, what is not proved, a legend,
and two scripts that are followed through the chapters."""
import html
import os
import re
from typing import Callable, Dict, List, Tuple

from theorem_words import KIT, SIGNS, STATUSES, names_of

TOP = os.path.dirname(os.path.dirname(os.path.realpath(__file__)))
SYMBOL = re.compile(r"`tools/theorem ([\w:]+)(?: [^`]*)?`")


def section(page: str, title: str) -> str:
    """The text of a section of a page of docs/."""
    with open(os.path.join(TOP, "docs", page), encoding="utf-8") as file:
        found = re.search(rf"^##+ {re.escape(title)}\n(.*?)(?=^## |\Z)", file.read(), re.M | re.S)
    return found[1] if found else ""


def prose(text: str) -> str:
    """A text of a page without its links, as HTML."""
    text = re.sub(r"\[([^\]]*)\]\([^)]*\)", r"\1", text)
    return re.sub(r"`([^`]+)`", r"<code>\1</code>", html.escape(text.strip(), quote=False))


def cells(text: str) -> List[List[str]]:
    """The rows of the tables of a text, without their heads."""
    rows = [[cell.strip() for cell in line.strip("|").split("|")] for line in text.split("\n") if line.startswith("|")]
    return [row for row in rows if not re.match(r"-+$|the sentence$|step$|status$", row[0])]


def sentence() -> str:
    """The theorem in one sentence, part by part."""
    parts = [row[0] for row in cells(section("promises.md", "The call")) if len(row) == 2]
    return " ".join(map(prose, parts))


def steps(place_of: Callable[[str], str]) -> str:
    """The steps through the statement, each with the definition that it leads to."""
    rows = []
    for row in cells(section("README.md", "The theorem")):
        name = SYMBOL.search(row[1]) if len(row) == 3 else None
        if len(row) == 3:
            place = place_of(name[1]) if name else place_of("")
            what = f'<a href="#{place}">{html.escape(name[1].split("::")[-1] if name else "the contract")}</a>' if place else ""
            rows.append(f"<li>{what}: {prose(row[2])}</li>")
    return "".join(rows)


def open_questions() -> str:
    """What no clause says of the call and below it, by the heads of the page of the promises."""
    text = section("promises.md", "What is not proved").partition("Of the companion:")[0]
    return "".join(f"<li>{prose(head)}</li>" for head in re.findall(r"^- \*\*([^*]+?)\.?\*\*", text, re.M))


def versions() -> str:
    """The version, the kit, and the digest of the sources that dist/PROVED names."""
    def told(path: str, form: str) -> str:
        try:
            with open(os.path.join(TOP, path), encoding="utf-8") as file:
                found = re.search(form, file.read(), re.M)
        except OSError:
            return "not known"
        return html.escape(found[1]) if found else "not known"
    return (f"Version {told('VERSION', '(.+)')}. The programs of <code>dist/</code> were proved by {told('dist/PROVED', '^kit (.*)$')}, "
            f"from sources of digest {told('dist/PROVED', '^sources ([0-9a-f]{16})')}.")


def followed() -> Tuple[Dict[str, str], Dict[str, List[Tuple[str, str]]]]:
    """The scripts of tools/followed.txt by name, and for each chapter what it says of which script."""
    with open(os.path.join(TOP, "tools", "followed.txt"), encoding="utf-8") as file:
        text = file.read()
    scripts = dict(re.findall(r"^= (\w+)\n((?:.+\n)+)", text, re.M))
    chapters = {title: re.findall(r"^(\w+): (.*)$", rows, re.M) for title, rows in re.findall(r"^# (.*)\n((?:.+\n)+)", text, re.M)}
    return scripts, chapters


def followed_in(chapter: str) -> str:
    """What a chapter makes of the two scripts."""
    rows = "".join(f"<div><dt>The {name} script</dt><dd>{prose(text)}</dd></div>" for name, text in followed()[1].get(chapter, []))
    return f"<dl class=two>{rows}</dl>" if rows else ""


def signs() -> str:
    """The table of signs."""
    rows = "".join(f"<tr><th><code>{html.escape(sign)}</code><td>{prose(text)}" for sign, text in SIGNS)
    return f"<table class=signs>{rows}</table>"


def kit() -> str:
    """The names of std and of the kit, each row with a mark to which its names lead."""
    rows = []
    for title, lines in KIT:
        rows.append(f"<h5>{html.escape(title)}</h5>")
        for head, text in lines:
            names = html.escape(" ".join(names_of(head)))
            rows.append(f'<article class=kit id="kit.{html.escape(names_of(head)[0])}" data-at="not printed here" data-names="{names}">'
                        f"<pre>{html.escape(head)}</pre><p>{prose(text)}</p></article>")
    return "".join(rows)


def front(place_of: Callable[[str], str]) -> str:
    """The section before the chapters. `place_of` makes the mark of a definition of its name, or nothing."""
    statuses = "".join(f'<tr><th>{status}<td><a href="#{place_of("liq_cli::Call::" + name)}">{name}</a><td>{prose(text)}'
                       for status, name, text in STATUSES)
    scripts = "".join(f"<div><dt>The {name} script</dt><dd><pre>{html.escape(text, quote=False)}</pre></dd></div>" for name, text in followed()[0].items())
    return (f'<section id=front><h2 id=c0>What this page says</h2><p>This is the contract of <code>liq</code>, with every definition that it rests on. '
            f'<a href="README.md">README</a> says what is proved, tested and trusted, and <a href="docs/promises.md">promises</a> has the clause '
            f"for each promise.</p><p>{versions()}</p><p>In one sentence, of <code>liq render FILE N</code>:</p><blockquote>{sentence()}</blockquote>"
            f"<h4>What each exit status means</h4><table>{statuses}</table><h4>Ten steps through it</h4><ol>{steps(place_of)}</ol>"
            f"<h4>What no clause says</h4><ul class=wide>{open_questions()}</ul>"
            f"<h4>Two scripts, followed through the chapters</h4><p>Each chapter says what its definitions make of them. "
            f"<code>L</code> is a list with the line <code>B</code>, and <code>B</code> and <code>C</code> are short WAV files.</p>"
            f"<dl class=two>{scripts}</dl><details open><summary>Signs</summary>{signs()}</details>"
            f"<details open><summary>Names of the standard library and of the kit</summary>{kit()}</details></section>")
