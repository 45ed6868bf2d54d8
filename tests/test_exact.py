"""Exact numbers as Python sees them: formats, rounding, arithmetic, JSON."""
import decimal
import json
import math
import numbers
import pickle
from fractions import Fraction

import pytest
from hypothesis import given
from hypothesis import strategies as st

import netflow
from netflow import Exact

DECIMALS = st.integers(-(10**12), 10**12).flatmap(
    lambda top: st.integers(0, 9).map(lambda power: Fraction(top, 10**power))
)
SPECS = st.sampled_from(
    [
        "",
        ".2f",
        ".0f",
        ",",
        "+",
        " ",
        "10",
        "<10",
        "^12",
        "*>12",
        "08.1f",
        "+,.3f",
        "e",
        ".3e",
        "g",
        ".3g",
        "%",
        ".1%",
        "=+15,.2f",
    ]
)


@given(DECIMALS, SPECS)
def test_decimal_formats_as_a_decimal_does(number, spec):
    text = decimal.Decimal(number.numerator) / decimal.Decimal(number.denominator)
    assert format(Exact(number), spec) == format(text, spec)


@given(st.integers(-(10**9), 10**9), st.integers(1, 999), st.integers(0, 8))
def test_format_of_a_fraction_rounds_the_fraction(top, bottom, digits):
    """Also one without a finite decimal is rounded from its exact value, halves to even."""
    number = Fraction(top, bottom)
    expected = round(number * 10**digits)
    assert decimal.Decimal(f"{Exact(number):.{digits}f}") == decimal.Decimal(expected).scaleb(-digits)


@pytest.mark.parametrize(
    ("number", "spec", "text"),
    [
        (Exact("444.5"), ".2f", "444.50"),
        (Exact("1234567.5"), ",", "1,234,567.5"),
        (Exact("1234567.5"), "_.2f", "1_234_567.50"),
        (Exact(440), "d", "440"),
        (Exact(440), "05d", "00440"),
        (Exact(1, 3), "", "1/3"),
        (Exact(1, 3), "6", "   1/3"),
        (Exact(-10_000_001, 3), ",", "-10,000,001/3"),
        (Exact(1, 3), "f", "0.333333"),
        (Exact(2, 3), ".1%", "66.7%"),
    ],
)
def test_format(number, spec, text):
    assert format(number, spec) == text


@pytest.mark.parametrize("spec", ["d", "s", "q", ".2d"])
def test_format_that_no_decimal_has(spec):
    with pytest.raises(ValueError):
        format(Exact("444.5"), spec)


def test_rounding_and_arithmetic_stay_exact():
    value = Exact("444.55")
    results = [
        round(value, 1),
        value % 10,
        value**2,
        +value,
        -value,
        abs(-value),
        2 * value,
        value / 3,
        sum([value, value]),
    ]
    assert all(type(result) is Exact for result in results)
    assert str(round(value, 1)) == "444.6" and round(Exact("0.25"), 1) == Fraction(1, 5)  # halves to even
    assert (round(value), math.floor(value), math.ceil(value), float(value)) == (445, 444, 445, 444.55)
    assert isinstance(round(value), int) and isinstance(value + 0.5, float)


def test_exact_is_a_rational_that_can_be_pickled():
    value = Exact("12.75")
    assert isinstance(value, numbers.Rational) and hash(value) == hash(12.75)
    assert type(pickle.loads(pickle.dumps(value))) is Exact and pickle.loads(pickle.dumps(value)) == value


def test_json_of_a_value():
    """The documented ways: `default=float` for one's own object, `to_json` for a plan with all digits."""
    plan = netflow.solve("minimize C; node A: net_in = 2; arc X >= 0, <= 9, to A, obj C 1.25;")
    assert json.loads(json.dumps({"v": plan.value}, default=float)) == {"v": 2.5}
    assert '"value": 2.5' in plan.to_json()
    assert f"{plan.value:.2f} {plan.value:,}" == "2.50 2.5"
