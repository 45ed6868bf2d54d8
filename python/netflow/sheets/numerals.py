"""Numbers as people write them: decimals with a point or a comma, and marks between groups of digits."""
from __future__ import annotations

import re

from ..exact import NUMERAL

LIKE_NUMBER = re.compile("[+\\-\u2212]?[0-9][0-9.,'\u2019\u00a0\u202f ]*(?:[eE][+-]?[0-9]+)?%?")
# A blank of any kind, or an apostrophe, between groups of digits.
BLANKS = "'\u2019 \u00a0\u202f\u2009"
# 1.204,15 and 1 204,15, and the same with a comma between groups: 1,204.15.
WITH_COMMA = re.compile(rf"[+-]?(?:[0-9]{{1,3}}(?:([.{BLANKS}])[0-9]{{3}})(?:\1[0-9]{{3}})*|[0-9]*)(?:,[0-9]+)?")
WITH_POINT = re.compile(rf"[+-]?[0-9]{{1,3}}(?:([,{BLANKS}])[0-9]{{3}})(?:\1[0-9]{{3}})*(?:\.[0-9]+)?")


def plain_numeral(text: str, has_comma: bool) -> str:
    """Returns a number in plain digits with a point before its decimals; the text itself for anything else. With
    `has_comma` a comma begins decimals, and a point groups thousands, as 1.204,15."""
    if has_comma and text and WITH_COMMA.fullmatch(text):
        return re.sub(f"[.{BLANKS}]", "", text).replace(",", ".")
    return text


def misread_numeral(text: str, has_comma: bool) -> str:
    """Returns why a text that looks like a number is none, and what is probably meant; an empty text for a number."""
    if has_comma and "." in text and NUMERAL.fullmatch(text):
        whole = text.replace(".", ",")
        return f"has a point, which groups thousands with --comma, and no three digits after it: is {whole} meant?"
    if NUMERAL.fullmatch(text) or not LIKE_NUMBER.fullmatch(text):
        return ""
    if not has_comma and WITH_POINT.fullmatch(text):
        meant = re.sub(f"[,{BLANKS}]", "", text)
        return (
            f"is no number in plain digits: is {meant} meant? Digits are not grouped (--comma: decimals have a comma)"
        )
    if not has_comma and WITH_COMMA.fullmatch(text):
        return f"is no number: is {plain_numeral(text, True)} meant? With --comma decimals have a comma"
    return "is no number in plain digits: take marks and units out of it" + (
        "" if has_comma else " (--comma: decimals have a comma)"
    )
