"""The words of the theorem's page: what each status means, the signs of definitions, and the names of std and of the kit."""
from typing import Dict, List, Tuple

STATUSES = (
    ("0", "ReportSaid", "all is done: the report on standard output, and each output as its source means it"),
    ("1", "LineSaid", "the script, or the trace of a replay, is refused for its first fault in a fixed order: one line, and nothing is changed"),
    ("2", "UsageSaid", "the words fit no form: the usage line, and nothing is changed"),
    ("3", "ReadFailed", "a count of failed reads rose: nothing is written"),
    ("4", "WriteFailed", "a count of failed writes rose: some line, the report or the rendering broke off"),
    ("5", "NoMemory", "no clause ties it to a cause: nothing is changed, or a rendering broke off"))
SIGNS = (
    ("A × B", "both A and B"), ("A ⊎ B", "A or B"), ("A → B", "if A, then B; of things: a function"), ("A ↔ B", "A exactly if B"),
    ("a ≡ b, a ≢ b", "a and b are the same, or are not"),
    ("(x : A) → B", "for each x of A"), ("(x : A) × B", "there is an x of A with B"), ("λ x. e", "the function that makes e of x"),
    ("f x y", "the function f of x and y"), ("r.name", "the field of this name of r"), ("x ∷ xs", "the list xs, and x before it"),
    ("xs ++ ys", "the list xs, and after it ys"), ("⊤ and ⊥", "what always holds, and what never does"),
    ("a - b, of ℕ", "0 if b is greater than a"), ("a / b, a % b", "the quotient rounded down, and what is left"),
    ("+ℤ -ℤ *ℤ ≤ℤ", "+, -, * and ≤ of whole numbers that may be negative"), ("&& || ==", "and, or and equality, as truth values"),
    ("Type 0", "what can be claimed, or the kind of a thing"), ("record", "several claims under names, all of which hold; or several values"),
    ("abbrev", "a name for the text after it"), ("unfoldable", "a name that the prover looks into only where it is asked to"))
# What each name means, by what it is about. A name is written with its arguments; a row may have several names, with a comma between them.
KIT: Tuple[Tuple[str, Tuple[Tuple[str, str], ...]], ...] = (
    ("Values that may be missing", (
        ("ForSome o P", "P holds of the value of o. If o has none, this is true: what an object does not tell is not claimed"),
        ("Option, Some x, None", "a value that may be missing: x, or nothing"),
        ("IsSome o", "o has a value"), ("IsSomeAnd o P", "o has a value, and P holds of it"),
        ("is_some o, is_none o", "whether o has a value, or has none, as a truth value"),
        ("unwrap_or o d", "the value of o, or else d"), ("option_or o p", "o if it has a value, else p"),
        ("option_map f o", "f of the value of o, if there is one"), ("option_map_or f o d", "f of the value of o, or else d"),
        ("option_and_then f o", "f of the value of o, which may be missing too"),
        ("Result, Ok x, Err e", "the answer x, or the fault e"), ("IfOk r P", "P holds of the answer, if r is one"),
        ("OnOk r P", "P, if r is an answer"), ("OnErr r P", "P, if r is a fault"), ("IsErrOf r e", "r is the fault e"))),
    ("Truth values", (
        ("Bool, true, false", "a truth value"), ("T b", "b is true"), ("not b", "true if b is false"), ("cond b x y", "x if b is true, else y"),
        ("nat_eq a b, nat_lt a b, nat_le a b", "whether a = b, a < b, a ≤ b"), ("int_lt a b, int_le a b", "the same of numbers that may be negative"))),
    ("Numbers", (
        ("ℕ, zero, suc n", "the whole numbers from 0 on; 0; the number after n"),
        ("ℤ, pos n, negsuc n", "all whole numbers; n; the number -1 - n"), ("neg_ℤ z", "-z"), ("unsigned_abs z", "z without its sign"),
        ("min a b, max a b, int_min a b, int_max a b", "the least, or the greatest, of two"),
        ("int_div a b", "a divided by b, rounded toward 0"), ("int_rem_euclid a b", "what is left of a divided by b; never negative"),
        ("w16", "the width of 16 bits"), ("cast_signed w n, cast_unsigned w z", "a number of this width read with a sign, or without one"))),
    ("Lists", (
        ("List, []", "things in their order; the list of none"), ("length xs", "how many there are"),
        ("slice_get xs i", "the thing at i, counted from 0, or None"), ("slice_index_or xs i d", "the thing at i, or d"),
        ("slice_index xs i", "the number at i, or 0"), ("take n xs, drop n xs", "the first n of a list; all but these"),
        ("replicate n x", "n times x"), ("range_with_len a n", "the n numbers from a on"), ("map f xs", "f of each"),
        ("flat_map f xs", "the lists that f makes of each, one after another"), ("filter p xs", "those that pass the test p"),
        ("find p xs", "the first that passes the test p, or None"), ("zip xs ys", "pairs of the first with the first, and so on"),
        ("fold f a xs", "what f makes of a and each x in turn"), ("list_any p xs", "whether some x passes the test p"),
        ("count_by p xs", "how many pass the test p"), ("sum_by f xs", "the sum of f of each"), ("All P xs", "P holds of each"),
        ("Contains xs x", "x is one of them"))),
    ("Texts and bytes", (
        ("String, Global", "a text of the program; where its memory comes from"), ("string_bytes s", "the bytes of a text"),
        ("codes \"abc\"", "the characters of a quoted text as numbers, here 97 98 99"), ("bytes_eq a b", "whether two texts are the same"),
        ("decimal n, signed_decimal z", "the digits of a number; with a sign if it is negative"),
        ("digits_value r ds", "the number that digits of base r write"), ("IsNumeral r ds", "these are digits of base r, and at least one"),
        ("AllDigits r ds", "each of these is a digit of base r"), ("is_ascii_digit c, is_ascii_alphabetic c", "whether c is one of 0 to 9, or a letter without accents"),
        ("is_utf8 bs", "whether bytes are the UTF-8 of some characters"), ("IsScalar c", "c is the number of a character of Unicode"),
        ("encode_utf8 c", "the bytes of a character"), ("to_le_bytes w n, little_bytes n x", "the bytes of a number, the lowest first"),
        ("little_number n bs", "the number that the first n bytes write, the lowest first"))),
    ("Files by name", (
        ("FinMap R X", "a thing of X for some keys, each at most once"), ("get m k", "what m has for the key k, or None"),
        ("insert m k x", "m with x for the key k"), ("from_entries xs", "the map of these pairs"),
        ("nat_cmp, slice_cmp", "the order of numbers, and the order of a dictionary that it gives to lists"))),
    ("Random words", (
        ("Lcg", "the state of a generator"), ("pcg32 g", "the next word of the generator PCG32, and its state then"),
        ("pcg32_seed n s", "the n bytes that a seed s is spread over"), ("pcg32_of_seed bs", "the generator that such bytes begin"))))
# Names that stand in each line: they have a meaning above, and are no link in the text.
PLAIN = {"ℕ", "ℤ", "List", "Bool", "true", "false", "Some", "None", "Option", "suc", "zero", "pos", "Ok", "Err", "Result", "⊤"}


def names_of(head: str) -> List[str]:
    """The names that a row of KIT explains, as `ForSome o P` explains `ForSome`."""
    return [part.split()[0] for part in head.split(", ")]


def explained() -> Dict[str, str]:
    """Each name of KIT, with the mark of its row on the page."""
    return {name: f"kit.{names_of(head)[0]}" for _, rows in KIT for head, _ in rows for name in names_of(head)}
