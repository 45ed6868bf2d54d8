"""Floats that were computed, missing values, and the value that is guilty when numbers cannot be scaled."""
import decimal
import warnings
from fractions import Fraction

import pytest
from hypothesis import given
from hypothesis import strategies as st

import netflow
from netflow.exact import as_fraction, has_many_digits, rounded_together
from support import write

MODEL = """set D; param hold {D}; minimize C;
node Depot {d in D}: net_in = 1; arc Keep {d in D} >= 0, <= 9, to Depot[d], obj C hold[d];"""
NEEDS = """set S; param need {S}; minimize C;
node Shop {s in S}: net_in = need[s]; arc Way {s in S} >= 0, <= 99, to Shop[s], obj C 1;"""


def lines(caught):
    return [str(warning.message) for warning in caught]


@pytest.mark.parametrize(
    ("value", "total"),
    [(0.1 + 0.2, Fraction(7, 10)), (0.7 + 0.1, Fraction(12, 10)), (1 / 3, Fraction(733333333333, 10**12))],
)
def test_computed_float_is_rounded_with_a_warning(value, total):
    with pytest.warns(UserWarning, match=r"hold\['Wels'\] = 0\.\d+ has more digits than netflow takes") as caught:
        plan = netflow.solve(MODEL, D=["Wels", "Salzburg"], hold={"Wels": value, "Salzburg": 0.4})
    assert plan.value == total and len(caught) == 1 and caught[0].filename == __file__


def test_computed_floats_next_to_large_values():
    """1/3 and 5000 have one factor, so 1/3 has as many digits as are left; several are one warning."""
    with pytest.warns(UserWarning) as caught:
        plan = netflow.solve(MODEL, D=["a", "b", "c"], hold={"a": 1 / 3, "b": 2 / 3, "c": 5000})
    assert abs(plan.value - 5001) <= Fraction(1, 10**7)
    assert len(lines(caught)) == 1 and lines(caught)[0].endswith("(1 more of hold)")


@pytest.mark.parametrize("value", [0.1, 19.99, 123456.789, 5e-7, 1e11, decimal.Decimal("0.123456789"), "0.3"])
def test_typed_numbers_are_exact_without_a_warning(value):
    with warnings.catch_warnings():
        warnings.simplefilter("error")
        assert netflow.solve(MODEL, D=["a"], hold={"a": value}).value == Fraction(str(value))


@given(st.floats(-1e9, 1e9, allow_nan=False), st.lists(st.floats(-1e6, 1e6), max_size=4))
def test_rounded_floats_fit(value, others):
    """What is rounded is near, and all numbers fit one factor, whatever they are."""
    numbers = [as_fraction(number) for number in (value, *others)]
    computed = [n for f, n in zip((value, *others), numbers) if has_many_digits(f, n)]
    rounded = rounded_together(computed, numbers)
    largest = max(map(abs, numbers))
    for before, after in zip(computed, rounded):
        assert abs(before - after) <= largest / 10**11
        assert max(abs(after), largest) * after.denominator < 10**13 or after == 0


def test_scale_error_names_the_guilty_cell(tmp_path):
    values = {"Wels": decimal.Decimal("0.30000000000000004"), "Salzburg": 0.4}
    with pytest.raises(netflow.ScaleError) as caught:
        netflow.solve(MODEL, D=["Wels", "Salzburg"], hold=values)
    assert "hold['Wels'] = 0.30000000000000004: round it" in str(caught.value)
    assert caught.value.parameter == "hold"
    path = write(tmp_path, "b.dat", "set D := Wels Graz;\nparam hold :=\nGraz 0.4\nWels 0.30000000000000004;\n")
    with pytest.raises(netflow.ScaleError, match=r"hold\['Wels'\] = 0.30000000000000004 in line 4 of b.dat: round it"):
        netflow.solve(MODEL, path)


def test_factor_that_is_too_small_names_the_cell():
    with pytest.raises(netflow.ScaleError, match=r"4.15 times 10 is not whole; see hold\['b'\] = 4.15"):
        netflow.solve(MODEL, D=["a", "b"], hold={"a": 1.5, "b": 4.15}, scale={"hold": 10})


def test_nan_that_leaves_the_value_of_a_file():
    """A NaN of a failed merge must not use the old number in silence. A key that is left out says that on purpose."""
    data = "set S := Linz Wels;\nparam need := Linz 3 Wels 4;\n"
    with pytest.warns(UserWarning, match=r"need\['Wels'\] is NaN, .* the data text counts: 4"):
        assert netflow.solve(NEEDS, data, need={"Linz": 5, "Wels": float("nan")}).value == 9
    with warnings.catch_warnings():
        warnings.simplefilter("error")
        assert netflow.solve(NEEDS, data, need={"Linz": 5}).value == 9


def test_nan_names_the_file(tmp_path):
    pandas = pytest.importorskip("pandas")
    path = write(tmp_path, "need.dat", "set S := Linz Wels;\nparam need := Linz 3 Wels 4.5;\n")
    for missing in (float("nan"), pandas.NA):
        frame = pandas.DataFrame({"S": ["Linz", "Wels"], "need": [5, missing]}).set_index("S")
        with pytest.warns(UserWarning, match=r"need\['Wels'\] is NaN, which gives no value, so that of .*need.dat"):
            assert netflow.solve(NEEDS, path, need=frame).value == Fraction(19, 2)


def test_nan_without_another_value():
    """Without a value to fall back to, the value is missing, which is an error, or the default counts."""
    with pytest.raises(netflow.ModelError, match="E32"):
        netflow.solve(NEEDS, S=["Linz"], need={"Linz": float("nan")})
    with warnings.catch_warnings():
        warnings.simplefilter("error")
        model = NEEDS.replace("param need {S}", "param need {S} default 2")
        assert netflow.solve(model, S=["Linz"], need={"Linz": float("nan")}).value == 2


def test_float_of_numpy_with_few_digits():
    numpy = pytest.importorskip("numpy")
    with warnings.catch_warnings():
        warnings.simplefilter("error")
        assert netflow.solve(MODEL, D=["a"], hold={"a": numpy.float32(4.15)}).value == Fraction(83, 20)
