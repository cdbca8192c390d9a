"""Numbers as Liquidsoap writes them, and as they are written here."""
import math
import re
from typing import Optional

LONGEST = 40           # digits; a number with more is left as it is
BASES = {"x": 16, "o": 8, "b": 2}


def whole(text: str) -> Optional[str]:
    """An int in plain digits, or nothing where it is long. Whether it is too large, liq says."""
    digits = text.replace("_", "")
    base = BASES.get(digits[1:2].lower(), 10) if digits.startswith("0") else 10
    if len(digits) > LONGEST:
        return None
    return text if re.fullmatch(r"\d+", text) else str(int(digits[2:] if base != 10 else digits, base))


def decimal(text: str) -> Optional[str]:
    """A decimal in plain digits, to a millionth, or nothing where it is long. Whether it is too large, liq says."""
    if re.fullmatch(r"\d{1,9}\.\d{0,6}", text):
        return text
    digits = text.replace("_", "")
    if len(digits) > LONGEST or re.search(r"[eE][+-]?\d{3}", digits):
        return None
    return shown(float(digits))


def shown(value: float) -> str:
    """A value of six digits behind its point at most."""
    front, _, rest = f"{value:.6f}".partition(".")
    return f"{front}.{rest.rstrip('0')}"


def as_decimal(text: str) -> Optional[str]:
    """A plain int, with or without its sign, as a decimal, or nothing."""
    return f"{text}." if re.fullmatch(r"-?\d{1,9}", text) else None


def decibels(text: str) -> Optional[str]:
    """The decibels of a factor, or nothing."""
    try:
        return shown(20 * math.log10(float(text.replace("_", ""))))
    except (ValueError, OverflowError):
        return None


def factor(decibels: str) -> Optional[str]:
    """The factor of so many decibels, or nothing."""
    try:
        return shown(10 ** (float(decibels.replace("_", "")) / 20))
    except (ValueError, OverflowError):
        return None
