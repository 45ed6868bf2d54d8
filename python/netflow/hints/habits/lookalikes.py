"""Names that look the same to a reader and are not: with a blank at an end, with letters of another script, or with
letters that are composed differently."""
from __future__ import annotations

import re
import unicodedata

# Letters of Cyrillic and Greek, and the Latin ones that they look like.
OTHERS = "\u0430\u0435\u043e\u0440\u0441\u0443\u0445\u0456\u0458\u0455\u0410\u0412\u0415\u041a\u041c\u041d\u041e\u0420"
OTHERS += "\u0421\u0422\u0425\u0423\u0406\u0408\u0405\u03bf\u03bd\u0391\u0392\u0395\u0396\u0397\u0399\u039a\u039c\u039d"
OTHERS += "\u039f\u03a1\u03a4\u03a5\u03a7"
LATIN = "aeopcyxijsABEKMHOPCTXYIJSovABEZHIKMNOPTYX"
SAME = str.maketrans(OTHERS, LATIN)
ASKED = re.compile(r"(?P<odd>.+?): is (?P<meant>.+) meant\?", re.S)
LISTED = re.compile(
    r"the set (?P<set>\w+) has (?P<odd>.+) in (?P<place>.*), which .*: is (?P<meant>.+) meant there\?", re.S
)


def oddity(name: str, other: str) -> str:
    """Returns in words what is odd in a name that looks like another one; an empty text if nothing is."""
    if name != other and name.strip() == other.strip():
        ends = [end for end, text in (("start", name.lstrip()), ("end", name.rstrip())) if text != name]
        return f"has a blank at its {' and its '.join(ends)}" if ends else ""
    if name != other and name.translate(SAME) == other.translate(SAME):
        pairs = [(one, two) for one, two in zip(name, other) if one != two and not one.isascii()]
        letter, meant = pairs[0] if pairs else ("", "")
        said = (
            f"looks like {other}, but has {unicodedata.name(letter)} (U+{ord(letter):04X}) for {meant}" if pairs else ""
        )
        return said
    return ""


def with_difference(hint: str) -> str:
    """Returns a hint that asks for a name that looks the same with the difference in words."""
    match = LISTED.fullmatch(hint) or ASKED.fullmatch(hint)
    if match is None or match["odd"] == match["meant"]:
        return hint
    name, other = match["odd"], match["meant"]
    place = f", {match['place']} in the set {match['set']}," if "place" in match.re.groupindex else ""
    if oddity(name, other):
        return f"{shown(name)}{place} {oddity(name, other)}: is {other.strip()} meant?"
    if oddity(other, name):
        return f"the data have {shown(other)} elsewhere, which {oddity(other, name)}: is {name} meant there?"
    if unicodedata.normalize("NFC", name) == unicodedata.normalize("NFC", other):
        return f"{name} looks like {other}, but its letters are composed differently: copy the name from there"
    return hint


def shown(name: str) -> str:
    return name if name == name.strip() else f"'{name}'"
