"""Exact numbers: decimals as fractions, their factors, and how they are printed."""
from __future__ import annotations

import decimal
import math
import re
from fractions import Fraction
from typing import Any, Iterable, Mapping, Union

Number = Union[int, Fraction]
NUMERAL = re.compile(r"[+-]?(?:[0-9]+(?:\.[0-9]+)?|\.[0-9]+)(?:[eEdD][+-]?[0-9]+)?")
# The largest absolute value that a model or its data can have, and the most digits of a power that are worked out.
LARGEST = 10**12
MOST_DIGITS = 60
# The most digits of a computed float.
DIGITS = 12
# The format specification of a number, as in the documentation of Python.
SPEC = re.compile(
    r"(?:(?P<fill>.)?(?P<align>[<>=^]))?(?P<sign>[-+ ]?)z?#?(?P<zero>0?)(?P<width>\d*)(?P<group>[,_]?)"
    r"(?:\.(?P<precision>\d+))?(?P<type>[a-zA-Z%]?)",
    re.S,
)


class Exact(Fraction):
    """A fraction that prints and formats as a decimal: `12.75`, or `1/3` without a finite decimal."""

    def __str__(self) -> str:
        return decimal_text(self)

    def __repr__(self) -> str:
        return f"Exact('{self}')"

    def __format__(self, spec: str) -> str:
        """Formats the number as a Decimal is formatted; a whole one takes the types of an int too."""
        parts = SPEC.fullmatch(spec)
        if parts is not None and self.denominator == 1 and (parts["type"] or "f") in "bcdoxX":
            return format(self.numerator, spec)
        if parts is not None and parts["precision"] is None and "/" in str(self):
            if not parts["type"]:
                return _fraction_text(self, parts.groupdict())
            spec = f"{spec[:-1]}.6{spec[-1]}"  # the digits of a float
        is_underlined = parts is not None and parts["group"] == "_"
        text = format(_as_decimal(self, spec), spec.replace("_", ",") if is_underlined else spec)
        return text.replace(",", "_") if is_underlined else text

    def __round__(self, ndigits: int | None = None) -> Any:
        """Returns an int without a number of digits, else an Exact."""
        result = super().__round__(ndigits)
        return result if ndigits is None else Exact(result)

    def __pos__(self) -> "Exact":
        return self

    def __neg__(self) -> "Exact":
        return Exact(-Fraction(self))

    def __abs__(self) -> "Exact":
        return Exact(abs(Fraction(self)))


def _as_decimal(number: Fraction, spec: str) -> decimal.Decimal:
    """Returns a fraction as a Decimal: exactly if the decimal is finite, else with so many digits that a rounding to
    those of the format is that of the fraction."""
    text = decimal_text(number)
    if "/" not in text:
        return decimal.Decimal(text)
    precision = SPEC.fullmatch(spec)
    digits = MOST_DIGITS + len(str(abs(number.numerator))) + int((precision and precision["precision"]) or 0)
    context = decimal.Context(prec=digits, rounding=decimal.ROUND_05UP)
    return context.divide(decimal.Decimal(number.numerator), decimal.Decimal(number.denominator))


def _fraction_text(number: Fraction, parts: Mapping[str, str]) -> str:
    """Returns a number without a finite decimal as `a/b`, with the sign, groups and width of a format."""
    sign, group = parts["sign"] or "", parts["group"] or ""
    text = f"{format(number.numerator, sign + group)}/{format(number.denominator, group)}"
    fill, align = parts["fill"] or ("0" if parts["zero"] else " "), parts["align"] or (">=")[bool(parts["zero"])]
    if align == "=":
        has_sign = text[0] in "+- "
        return text[:has_sign] + text[has_sign:].rjust(int(parts["width"] or 0) - has_sign, fill)
    return format(text, f"{fill}{align}{parts['width'] or 0}")


def _exact_method(name: str) -> Any:
    plain = getattr(Fraction, name)

    def method(self: Exact, other: Any) -> Any:
        result = plain(self, other)
        return Exact(result) if type(result) is Fraction else result

    method.__name__ = name
    return method


for _name in ("add", "radd", "sub", "rsub", "mul", "rmul", "truediv", "rtruediv", "mod", "rmod", "pow"):
    setattr(Exact, f"__{_name}__", _exact_method(f"__{_name}__"))


def decimal_text(number: Fraction) -> str:
    """Returns the number as a plain decimal, or as `a/b` if no decimal is exact."""
    top, bottom = number.numerator, number.denominator
    rest, twos, fives = bottom, 0, 0
    while rest % 2 == 0:
        rest, twos = rest // 2, twos + 1
    while rest % 5 == 0:
        rest, fives = rest // 5, fives + 1
    if rest != 1:
        return f"{top}/{bottom}"
    digits = max(twos, fives)
    if digits == 0:
        return str(top)
    text = str(abs(top) * 10**digits // bottom).rjust(digits + 1, "0")
    return f"{'-' if top < 0 else ''}{text[:-digits]}.{text[-digits:]}"


def power_text(number: int) -> str:
    """Returns a large power of ten as one, such as 10^12."""
    digits = str(number)
    return f"10^{len(digits) - 1}" if len(digits) > 7 and digits.rstrip("0") == "1" else digits


def divided(number: Number, factor: int) -> Number:
    """Returns the number divided by the factor: an int if the factor is 1, else an Exact."""
    return number if factor == 1 else Exact(number, factor)


def magnitude(number: Number) -> Number:
    """Returns the absolute value of a number."""
    return -number if number < 0 else number


def parse_numeral(text: str) -> Fraction | None:
    """Returns the value of a numeral of a model or data text; None for any other word, or an unreasonable power."""
    if not NUMERAL.fullmatch(text):
        return None
    mantissa, _, power = re.sub("[dD]", "e", text).replace("E", "e").partition("e")
    if len(power.lstrip("+-")) > 3 or abs(int(power or 0)) > MOST_DIGITS:
        return None
    return Fraction(mantissa) * Fraction(10) ** int(power or 0)


def as_fraction(value: Any) -> Fraction | None:
    """Returns a Python number exactly, a float as its shortest decimal; None for what is no finite number."""
    if isinstance(value, bool):
        return Fraction(int(value))
    if isinstance(value, (int, Fraction)):
        return Fraction(value)
    if isinstance(value, decimal.Decimal):
        return Fraction(value) if value.is_finite() else None
    if hasattr(value, "item") and not isinstance(value, (str, bytes)):
        if getattr(value, "size", 1) != 1:
            return None
        # A number of NumPy; a short float has its own shortest decimal.
        is_short = getattr(value, "itemsize", 8) < 8 and isinstance(value.item(), float) and math.isfinite(value)
        return Fraction(str(value)) if is_short else as_fraction(value.item())
    if isinstance(value, float):
        return Fraction(repr(value)) if math.isfinite(value) else None
    return None


def has_many_digits(value: Any, number: Fraction) -> bool:
    """Whether a Python number is a float that no model can have: with more than 12 digits, as `0.1 + 0.2` and `1/3`."""
    is_float = isinstance(value, float) or hasattr(value, "item") and isinstance(value.item(), float)
    return is_float and number.denominator > 1 and len(str(abs(number) * 10 ** decimals(number))) > DIGITS


def decimals(number: Fraction) -> int:
    """Returns how many digits a decimal has after its point."""
    return len(decimal_text(number).partition(".")[2])


def rounded_together(computed: Iterable[Fraction], numbers: Iterable[Fraction]) -> list[Fraction]:
    """Returns computed values rounded to the last of the 12 digits that the largest of the numbers has, so that all of
    them can be scaled by one factor."""
    largest = max((abs(number) for number in numbers), default=Fraction(1))
    places = DIGITS
    while largest >= Fraction(10) ** (DIGITS - places):
        places -= 1
    while 0 < largest < Fraction(10) ** (DIGITS - places - 1):
        places += 1
    return [round(value, places) for value in computed]


def common_factor(values: Iterable[Fraction]) -> int:
    """Returns the least factor that makes all values whole: a power of ten if decimals are exact, else the common
    denominator."""
    bottom = 1
    for value in values:
        bottom = math.lcm(bottom, value.denominator)
    if bottom == 1:
        return 1
    power = 1
    for _ in range(MOST_DIGITS):
        power *= 10
        if power % bottom == 0:
            return power
    return bottom
