"""What is shown of a word of a script: of a name that it binds, and of the call round a place."""
from typing import Any, Dict, NamedTuple, Optional

from liq.advising.script import Script, arguments_of
from liq.advising.tables import Call, written
from liq.serving.completing import call_named, number_before, shown_line
from liq.serving.naming import binding_at

SORTS = {"value": "a value", "def": "a def", "parameter": "a parameter of its def"}


class Signature(NamedTuple):
    """A call with its parameters as it is written, the texts of the parameters in it, and the number of that at hand."""
    form: str
    parameters: "tuple[str, ...]"
    active: int


def own_name(script: Script, at: int) -> Optional[str]:
    """What is told of a name that the script binds, in Markdown, or nothing."""
    binding = binding_at(script, at)
    if binding is None:
        return None
    line = script.line(script.tokens[binding.number].at)
    return f"`{binding.name}` is {SORTS[binding.sort]}, bound in line {line}:\n\n    {shown_line(script, binding)}"


def signature(script: Script, at: int, calls: Dict[str, Call]) -> Optional[Signature]:
    """The call round a character with its parameter at hand, or nothing."""
    number = number_before(script, at)
    token = script.token(number)
    number += token is not None and token.behind == at and token.kind != "text"
    opener = script.call_round(min(number, len(script.tokens)))
    if opener is None or opener >= number or script.word(opener - 1) == "def":
        return None
    call = call_named(script, opener, calls)
    return Signature(call.form, tuple(map(written, call.parameters)), active(script, opener, number, call)) if call else None


def active(script: Script, opener: int, number: int, call: Call) -> int:
    """The number of the parameter that an argument at a token is for: that of its label, or else the next one that is given
    in its place. It is the number of all parameters where there is none."""
    commas = [place for place in range(opener + 1, min(number, len(script.tokens)))
              if script.parents[place] == opener and script.tokens[place].text == "," and script.tokens[place].is_sign]
    first = commas[-1] + 1 if commas else opener + 1
    names = [parameter.name for parameter in call.parameters]
    here = script.token(first)
    if here is not None and here.kind == "name" and script.word(first + 1) == "=" and here.text in names:
        return names.index(here.text)
    before = [one for one in arguments_of(script.tokens, opener) if one.label is None and one.number < first]
    bare = call.bare[len(before)] if len(before) < len(call.bare) else None
    return names.index(bare.name) if bare else len(names)


def as_protocol(found: Signature) -> Any:
    """A signature in the form of the protocol."""
    return {"signatures": [{"label": found.form, "parameters": [{"label": one} for one in found.parameters]}],
            "activeSignature": 0, "activeParameter": found.active}
