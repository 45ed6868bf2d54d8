"""Names of nodes and arcs as planners read them: `Balance PITT` for `Balance['PITT']`."""
from __future__ import annotations

import re

_MEMBER = r"(?:'(?:[^']|'')*'|-?\d+)"
REFERENCE = re.compile(rf"\b[A-Za-z_]\w*\[{_MEMBER}(?:,{_MEMBER})*\]")
MEMBER = re.compile(_MEMBER)


def spoken(name: str) -> str:
    """Returns a name with its key, without brackets and quotes; a key that begins with the name is enough alone."""
    head, bracket, rest = name.partition("[")
    key = rest[:-1].replace("''", "\u2019").replace("'", "").replace(",", " ")
    return key if bracket and key.lower().startswith(head.lower()) else f"{head} {key}" if bracket else head


def in_words(text: str) -> str:
    """Returns a text in which each name with a key is in planners' words."""
    return REFERENCE.sub(lambda found: spoken(found[0]), text) if "[" in text else text


def key_of(name: str) -> tuple[str, list[str]]:
    """Returns the declaration of a node and the members of its key; texts keep their quotes."""
    head, _, rest = name.partition("[")
    return head, MEMBER.findall(rest)
