"""Which small edits let a script go on behind the token of a fault of syntax (E06). Each is tried: by the grammar,
by the arguments of the calls that it touches, and by their sorts as far as they are told."""
from collections import defaultdict
from dataclasses import dataclass
from typing import Dict, Iterator, List, Tuple

from liq.advising.calls import call_at, given
from liq.advising.clashing import of_argument
from liq.advising.script import CLOSES, Script, Token, Tokens, closer_of, arguments_of, is_begin, is_end
from liq.advising.sorts import clashes
from liq.advising.tables import Call

MOST_TOKENS = 3000     # of a longer script none is tried, since each is read whole
MOST_BEFORE = 60       # tokens before the fault at which an opening bracket is tried


@dataclass
class Edit:
    """So many tokens from a place on are left out, and these texts stand there."""
    place: int
    out: int
    texts: Tuple[str, ...]


def edited(script: Tokens, edit: Edit) -> Tokens:
    """The tokens of the script behind an edit."""
    tokens = script.tokens
    here = tokens[edit.place].at if edit.place < len(tokens) else len(script.text)
    made = [Token("keyword" if text.isalpha() else "mark", text, here) for text in edit.texts]
    return Tokens(script.text, tokens[:edit.place] + made + tokens[edit.place + edit.out:])


def goes_on(script: Script, edit: Edit, number: int, calls: Dict[str, Call]) -> bool:
    """Whether a script goes on behind an edit, from the token of the fault to the end of its statement, with calls
    that may be."""
    made = edited(script, edit)
    fault = made.reading.fault
    behind = max(edit.place, number + len(edit.texts) - edit.out)
    starts = [start for start in made.starts if start >= behind and start > 0]
    if starts and not begins_alone(script, made, starts[0]):
        return False
    if fault is not None and (not starts or fault == starts[0] or is_closer(made.token(fault))):
        return False
    end = starts[0] if starts else len(made.tokens)
    first = made.statement_of(max(0, min(edit.place, end - 1)))
    met = [call for call in made.reading.calls if first <= call.number < end]
    return all(is_known(made, place, calls) for place in (edit.place - 1, edit.place, edit.place + 1) if place < end) \
        and all(is_possible(made, call.number, calls, call.number < edit.place <= call.last) for call in met)


def is_known(made: Tokens, number: int, calls: Dict[str, Call]) -> bool:
    """Whether a token beside an edit is no name, or one that stands for something here, or that is bound or a label."""
    token = made.token(number)
    if token.kind not in ("name", "open"):
        return True
    if made.word(number + 1) == "=" or made.word(number - 1) in ("def", "~"):
        return True
    bound = made.bound(made.visible(number))
    return token.name in bound or token.name in (calls if token.kind == "open" else made.parameters(number))


def is_closer(token: Token) -> bool:
    return token.closes


def begins_alone(script: Script, made: Tokens, number: int) -> bool:
    """Whether a statement is the first thing of its line, or stands behind a `;`."""
    at = made.tokens[number].at
    return made.word(number - 1) == ";" or not script.text[script.text.rfind("\n", 0, at) + 1:at].strip()


def is_possible(made: Tokens, number: int, calls: Dict[str, Call], is_near: bool) -> bool:
    """Whether a call has as many arguments as it takes, with labels that it has, of sorts that fit as far as they
    are told. Of one that is not known nothing is told, so it may not be round the edit."""
    call = call_at(made, number, calls)
    if call is None:
        return not is_near or made.word(number - 1) == "def"
    arguments = arguments_of(made.tokens, number)
    labels = [argument.label for argument in arguments if argument.label]
    if len(arguments) - len(labels) != len(call.bare) or any(label not in [*call.labels, "id"] for label in labels):
        return False
    return not any(clashes(made, parameter, argument) or of_argument(made, parameter, argument)
                   for parameter, argument in given(call, arguments))


def candidates(script: Script, number: int) -> Iterator[Tuple[str, Edit]]:
    """The edits that are tried at a token, each with its sort."""
    token, inner = script.token(number), script.parents[number]
    close = closer_of(script.tokens[inner]) if inner is not None else None
    if close:
        yield "close", Edit(number, 0, (close,))
    if not token:
        return
    if number and script.token(number - 1).kind == "name" and is_begin(token):
        yield "equals", Edit(number, 0, ("=",))
    for word in ("then", "else") if close == "end" and script.word(inner) == "if" else ():
        yield word, Edit(number, 0, (word,))
    if is_end(script.token(number - 1)) and is_begin(token):
        yield "comma", Edit(number, 0, (",",))
    if token.text == ";":
        yield "as comma", Edit(number, 1, (",",))
    yield "out", Edit(number, 1, ())
    if number:
        yield "out before", Edit(number - 1, 1, ())
    if token.closes:
        if close:
            yield "other close", Edit(number, 1, (close,))
        yield "swapped", Edit(number, 2, (script.word(number + 1) or token.text, token.text))
        opener = next(sign for sign, closing in CLOSES.items() if closing == token.text)
        for place in range(max(script.statement_of(number), number - MOST_BEFORE), number) if opener in "([{" else ():
            yield "open", Edit(place, 0, (opener,))


def tried(script: Script, number: int, calls: Dict[str, Call]) -> Dict[str, List[Edit]]:
    """The edits with which the script goes on, by their sort."""
    found = defaultdict(list)
    for sort, edit in candidates(script, number) if len(script.tokens) <= MOST_TOKENS else ():
        if goes_on(script, edit, number, calls):
            found[sort].append(edit)
    return found
