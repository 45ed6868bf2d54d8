"""Members, keys and references such as `Ship['PITT','NE']`, as netflow prints them."""
from __future__ import annotations

import re
from typing import Dict, Sequence

from ..errors import Unreadable
from ..types import Member

NUMBER = r"(?:0|-?[1-9][0-9]*)"
MEMBER = rf"(?:'(?:[^']|'')*'|{NUMBER})"
MEMBERS = re.compile(MEMBER)
NAME = re.compile(r"[^\[\] ']+")
KEY = re.compile(rf"{MEMBER}(?:,{MEMBER})*")


class Members(Dict[str, Member]):
    """Members by their printed texts. It grows as keys are read, since many keys have few members."""

    def __missing__(self, text: str) -> Member:
        if not MEMBERS.fullmatch(text):
            raise KeyError(text)
        member: Member = text[1:-1].replace("''", "'") if text.startswith("'") else int(text)
        self[text] = member
        return member

    def key(self, text: str) -> list[Member] | None:
        """Returns the members of a printed key, texts without their quotes; None for no key."""
        if not text:
            return []
        try:
            # A comma inside a member leaves an odd number of quotes on both sides, and so no member.
            return list(map(self.__getitem__, text.split(",")))
        except KeyError:
            return list(map(self.__getitem__, MEMBERS.findall(text))) if KEY.fullmatch(text) else None


def members(text: str) -> list[Member] | None:
    """Returns the members of a printed key; None for no key."""
    return Members().key(text)


def shown(member: Member) -> str:
    """Returns a member in netflow's form."""
    return str(member) if isinstance(member, int) else "'" + member.replace("'", "''") + "'"


def reference(text: str) -> tuple[str, list[Member]]:
    """Returns the name and the key of `Ship['PITT','NE']`."""
    (name,), (key,) = references([text])
    return name, key


def references(texts: Sequence[str]) -> tuple[list[str], list[list[Member]]]:
    """Returns the names and the keys of references such as `Ship['PITT','NE']`."""
    known, keys = Members(), []
    names: dict[str, str] = {}
    result = []
    for text in texts:
        name, bracket, key = text.partition("[")
        parts = known.key(key[:-1]) if key[-1:] == "]" or not bracket else None
        if parts is None or name not in names and not NAME.fullmatch(name):
            raise Unreadable(f"{text!r} is no node and no arc")
        result.append(names.setdefault(name, name))
        keys.append(parts)
    return result, keys
