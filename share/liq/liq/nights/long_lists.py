"""Lists that are longer than liq reads: they are looked at in pieces, as a night plays them in parts."""
import dataclasses
import os
import tempfile
from typing import Iterator, List

from liq.doctoring.calls import quoted
from liq.nights.failed import Failed
from liq.reading.companion import Companion, NoAnswer
from liq.reading.facts import Facts, Listed, Refused
from liq.watching.names import shown

LONG = "too large"     # the state of such a list
MOST = 1 << 26         # bytes of a list that a night reads


def whole(companion: Companion, facts: Facts) -> Facts:
    """The facts, with the entries of long lists and what becomes of them."""
    for listed in facts.lists:
        if listed.state == LONG and facts.list_most:
            facts = with_list(companion, facts, listed)
    return facts


def with_list(companion: Companion, facts: Facts, listed: Listed) -> Facts:
    """The facts with one list that is long."""
    with tempfile.TemporaryDirectory(prefix="liq-night-") as folder:
        names = []
        for k, piece in enumerate(pieces(listed.name, facts.list_most or 0)):
            names.append(os.path.join(folder, f"{k}.m3u"))
            with open(names[-1], "wb") as file:
                file.write(piece)
        try:
            found = companion.files_of(script_of(names, facts.rate))
        except NoAnswer as error:
            raise Failed(f"list {shown(listed.name)}: {error}", error.status) from None
    if isinstance(found, Refused) or any(one.state != "read" for one in found.lists):
        return facts
    entries = [entry for one in found.lists for entry in one.entries]
    other = Listed(listed.name, "read", tuple(entries), sum(one.skipped for one in found.lists))
    lists = tuple(other if one.name == listed.name else one for one in facts.lists)
    return dataclasses.replace(facts, lists=lists, sounds={**found.sounds, **facts.sounds})


def pieces(name: str, most: int) -> Iterator[bytes]:
    """The lines of a list, in pieces of at most so many bytes each; nothing where a line or the list is too long."""
    with open(name, "rb") as file:
        data = file.read(MOST + 1)
    while data and len(data) <= MOST:
        end = len(data) if len(data) <= most else data.rfind(b"\n", 0, most) + 1
        if not end:
            return
        yield data[:end]
        data = data[end:]


def script_of(names: List[str], rate: int) -> bytes:
    """A script that names these lists."""
    lines = [f'set("frame.audio.samplerate", {rate})']
    lines += [f'output.file(fallible=true, %wav, "{k}.wav", playlist({quoted(name)}))' for k, name in enumerate(names)]
    return "\n".join(lines).encode(errors="surrogateescape")
