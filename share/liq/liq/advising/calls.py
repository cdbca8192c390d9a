"""What to do about the arguments of a call: one is missing (E09), or no parameter takes one (E10)."""
from typing import Dict, Iterator, List, Optional, Sequence, Tuple

from liq.advising import leaving
from liq.advising.helping import Edit, mended
from liq.advising.names import alike
from liq.advising.script import Argument, Script, Tokens, arguments_of
from liq.advising.sorts import clashes, sort_of
from liq.advising.tables import Call, Parameter, Words, left_out

LONGEST = 40           # characters of an argument that is shown


def call_at(script: Tokens, number: int, calls: Dict[str, Call]) -> Optional[Call]:
    """The call that a token opens, of the language or of a def of the script, or nothing."""
    name = script.tokens[number].name
    sort, at = script.bound(script.statement_of(number)).get(name, ("", 0))
    return call_of_def(script, at) if sort == "def" else calls.get(name)


def call_of_def(script: Tokens, at: int) -> Call:
    """The call of a def whose name is this token."""
    parameters = []
    for argument in arguments_of(script.tokens, at):
        tokens = argument.tokens
        is_labelled = tokens[0].text == "~"
        default = script.text[tokens[3].at:tokens[-1].behind] if is_labelled and len(tokens) > 3 else None
        sort = sort_of(script, tokens[3:], at) if default is not None else None
        parameters.append(Parameter(tokens[is_labelled].text, default, sort or "", is_labelled))
    return Call(script.tokens[at].name, parameters)


def given(call: Call, arguments: Sequence[Argument]) -> Iterator[Tuple[Parameter, Argument]]:
    """The arguments of a call with their parameters."""
    bare = iter(call.bare)
    for argument in arguments:
        parameter = next(bare, None) if argument.label is None else call.parameter(argument.label)
        if parameter:
            yield parameter, argument


def text_of(script: Tokens, argument: Argument) -> str:
    """An argument as it stands in the script, or `..` where it is long."""
    text = script.text[argument.tokens[0].at:argument.tokens[-1].behind]
    return text if len(text) <= LONGEST and "\n" not in text else ".."


def labelled_wrongly(script: Tokens, call: Call, arguments: Sequence[Argument]) -> Optional[str]:
    """Where an argument has a label that has none."""
    names = [parameter.name for parameter in call.bare]
    for argument in arguments:
        if argument.label in names:
            written = ", ".join(text_of(script, argument) if name == argument.label else name for name in names)
            line = f"`{argument.label}` is given in its place, without a label: `{call.name}({written})`"
            return leaving.with_edit(line, in_order(script, call, arguments))
    return None


def in_order(script: Tokens, call: Call, arguments: Sequence[Argument]) -> Optional[Edit]:
    """The arguments of a call with those that have no label given in their places, where all are there."""
    names = [parameter.name for parameter in call.bare]
    own = {one.label: one for one in arguments if one.label in names}
    bare = iter([one for one in arguments if one.label is None])
    others = [leaving.text_of(script, one) for one in arguments if one.label is not None and one.label not in names]
    found = [own.get(name) or next(bare, None) for name in names]
    if None in found or next(bare, None) is not None:
        return None
    texts = [script.text[one.tokens[0].at:one.tokens[-1].behind] for one in found if one]
    first, last = arguments[0], arguments[-1]
    begin = script.tokens[first.number - 2 * (first.label is not None)].at
    return Edit(begin, last.tokens[-1].behind, ", ".join([*others, *texts]))


def lacking(script: Script, call: Call, arguments: Sequence[Argument]) -> List[Parameter]:
    """The parameters of which one alone may be the one that is not given, as far as the sorts of those that are
    tell it."""
    bare = [argument for argument in arguments if argument.label is None]
    if len(call.bare) != len(bare) + 1:
        return []
    found = []
    for parameter in call.bare:
        others = [other for other in call.bare if other is not parameter]
        if not any(clashes(script, other, argument) for other, argument in zip(others, bare)):
            found.append(parameter)
    return found


def missing_argument(script: Script, number: int, label: str, calls: Dict[str, Call]) -> Optional[str]:
    """E09."""
    call = call_at(script, number, calls)
    if call is None:
        return None
    arguments = arguments_of(script.tokens, number)
    wrong = labelled_wrongly(script, call, arguments)
    if wrong:
        return wrong
    unknown = [one for one in arguments if one.label is not None and one.label not in (*call.labels, "id")]
    if len(unknown) == 1 and len(call.bare) == len([one for one in arguments if one.label is None]) + 1 == 1:
        only = call.bare[0].name
        line = (f"`{only}` is given in its place, without a label, and `{unknown[0].label}=` is none: "
                f"`{call.name}({text_of(script, unknown[0])})`")
        return mended(line, script.tokens[unknown[0].number - 2].at, unknown[0].tokens[0].at, "")
    if label in call.labels:
        line = f"`{label}` of `{call.name}` is given by its label: `{call.short}`"
        is_it = not call.bare and len(arguments) == 1 and arguments[0].label is None
        return mended(line, arguments[0].tokens[0].at, arguments[0].tokens[0].at, f"{label}=") if is_it else line
    found = lacking(script, call, arguments)
    shown = written_with(script, call, arguments, found)
    if shown:
        return shown
    if len(found) == 1 and found[0].type:
        return f"`{found[0].name}` is missing ({found[0].type.replace('`', '')}): the call is `{call.short}`"
    return f"the call is `{call.short}`{'; ' + call.types if call.types else ''}"


def written_with(script: Script, call: Call, arguments: Sequence[Argument],
                 found: Sequence[Parameter]) -> Optional[str]:
    """The call with the one argument that it lacks, where all others are there: its format, or its last source."""
    if len(found) != 1:
        return None
    texts = [(f"{one.label}=" if one.label is not None else "") + text_of(script, one) for one in arguments]
    if any(len(text) > 40 or "\n" in text for text in texts):
        return None
    name = found[0].name
    if found[0].type.startswith("a format"):
        open_bracket = script.tokens[arguments[0].number - 2 * (arguments[0].label is not None)].at if arguments else 0
        line = f"the format is missing: `{call.name}({', '.join(['%wav', *texts])})`"
        return mended(line, open_bracket, open_bracket, "%wav, ") if arguments else line
    if found[0].type.startswith("source") and found[0] is call.bare[-1]:
        return f"`{name}` is missing: `{call.name}({', '.join([*texts, 'SOURCE'])})`"
    return None


def unknown_label(script: Script, at: int, number: int, words: Words, call: Call) -> Optional[str]:
    """E10 of a label."""
    label = script.tokens[number].text
    if call.name == "switch" and label in ("default", "else", "otherwise"):
        return of_default(script, at, number)
    way = words.arguments.get((call.name, label, None))
    if way:
        line = left_out(f"`{label}=` of `{call.name}`", way)
        return leaving.with_edit(line, leaving.of_label(script, at, label)) if way.startswith(leaving.OUT) else line
    if label in [parameter.name for parameter in call.bare]:
        return labelled_wrongly(script, call, arguments_of(script.tokens, at))
    if label in call.labels:
        return f"`{label}=` stands twice"
    near = alike(label, call.labels)
    if near:
        return f"do you mean `{near}=`?"
    labels = [f"`{name}=`" for name in call.labels]
    if labels:
        return f"the labels of `{call.name}` are {', '.join(labels)}"
    return f"no argument of `{call.name}` has a label: the call is `{call.form}`"


def of_default(script: Script, at: int, number: int) -> str:
    """E10 of a label that is meant as the last pair of a switch; the edit where it stands behind the list."""
    line, value = "the last pair of a switch is the default: `({true}, SOURCE)`", None
    for argument in arguments_of(script.tokens, at):
        value = argument if argument.number == number + 2 else value
    if value is None or script.word(number - 1) != "," or script.word(number - 2) != "]":
        return line
    return mended(line, script.tokens[number - 2].at, value.tokens[-1].behind,
                  f", ({{true}}, {leaving.text_of(script, value).partition('=')[2]})]")


def has_decimal_comma(script: Script, number: int) -> bool:
    """Whether a token stands behind a comma with digits directly on both sides."""
    whole, comma, before = (script.token(number - k) for k in range(3))
    return (whole.kind == before.kind == "int" and comma.text == ","
            and script.is_close(number) and script.is_close(number - 1))


def extra_argument(script: Script, number: int, words: Words, calls: Dict[str, Call]) -> Optional[str]:
    """E10."""
    at = script.call_round(number)
    call = call_at(script, at, calls) if at is not None else None
    if call is None or at is None:
        return None
    if script.tokens[number].kind == "name" and script.word(number + 1) == "=":
        return unknown_label(script, at, number, words, call)
    arguments = arguments_of(script.tokens, at)
    for argument in arguments:
        if has_decimal_comma(script, argument.number):
            whole, rest = script.token(argument.number - 2), script.tokens[argument.number]
            decimal = f"{whole.text}.{rest.text}"
            return mended(f"a decimal has a point, and no comma: `{decimal}`", whole.at, rest.behind, decimal)
    if call.bare and call.bare[-1].name in ("sources", "pairs") and are_sources(script, call, arguments):
        line = f"the sources stand in one list: `{call.name}([.., ..])`"
        return leaving.with_edit(line, in_one_list(script, arguments))
    if call.name in ("single", "playlist"):
        return f"`{call.name}` takes one name; several are played by `sequence`, `rotate`, or a list of their names"
    free = [label for label in call.labels if label not in [argument.label for argument in arguments]]
    if free:
        return f"the call is `{call.form}`: those with `=` are given by their label, the others without"
    return f"the call is `{call.form}`"


def in_one_list(script: Script, arguments: Sequence[Argument]) -> Optional[Edit]:
    """The arguments without a label in one list, where they stand side by side."""
    numbers = [k for k, one in enumerate(arguments) if one.label is None]
    if not numbers or numbers[-1] - numbers[0] + 1 != len(numbers):
        return None
    begin, behind = arguments[numbers[0]].tokens[0].at, arguments[numbers[-1]].tokens[-1].behind
    return Edit(begin, behind, f"[{script.text[begin:behind]}]")


def are_sources(script: Script, call: Call, arguments: Sequence[Argument]) -> bool:
    """Whether all that is given without a label may be items of the one list that the call takes."""
    bare = [argument for argument in arguments if argument.label is None]
    due = ("source", None) if call.bare[-1].name == "sources" else ("tuple", None)
    return all(sort_of(script, argument.tokens, script.visible(argument.number)) in due for argument in bare)
