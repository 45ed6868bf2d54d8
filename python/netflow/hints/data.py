"""Hints for the errors of data texts, and for names and members that are nearly right."""
from __future__ import annotations

import difflib
import os
import re
from typing import Iterator

from ..reading.text import TOKEN, Token, tokens
from .diagnostic import Diagnostic
from .hint import Hints, HintTable
from .keys import heading_place, near, outside_set
from .tables import heading_fault
from .values import missing_in_set, misspelt_statement

DECLARING = {"set", "param", "check", "node", "arc", "minimize", "maximize"}
MEMBER = re.compile(r"'(?:[^']|'')*'|-?\d+")


def bare(text: str) -> str:
    return text[1:-1].replace("''", "'") if text[:1] == "'" else text


def sheet(diagnostic: Diagnostic) -> Hints:
    """Data that are a CSV file: the first line has commas and no `:=`."""
    lines = [line for line in diagnostic.texts.get("data", "").split("\n") if line.strip()]
    first = lines[0] if lines else ""
    if (
        diagnostic.text == "data"
        and ":=" not in diagnostic.texts["data"]
        and (first.count(",") or first.count("\t") or first.count(";") > 1)
        and len(lines) > 1
    ):
        yield "the data are a CSV file: `netflow-sheet list FILE.csv` makes data of it", True


def joined(diagnostic: Diagnostic) -> Hints:
    if diagnostic.text == "data" and diagnostic.word() in ("data", "end") and len(diagnostic.statement()) <= 2:
        place = "first" if diagnostic.word() == "data" else "last"
        yield (
            f"{diagnostic.word()}; is allowed only as the {place} statement: are two data files joined? Give both"
            " to the tools",
            True,
        )


def unended_statement(diagnostic: Diagnostic) -> Hints:
    """A line that begins as a statement inside another one."""
    whole = diagnostic.statement() if diagnostic.text == "data" else []
    first = whole[0].row if whole else 0
    for here, token in enumerate(whole):
        if token.text in ("set", "param") and token.row > first and whole[here - 1].row < token.row:
            yield f"is a ; missing at the end of {diagnostic.line_text(whole[here - 1].row)}?", True
            return
    is_known = list(sheet(diagnostic)) or list(misspelt_statement(diagnostic))
    if (
        whole
        and whole[0].row == diagnostic.row
        and whole[0].text == diagnostic.word()
        and whole[0].text not in ("set", "param", ";", "data", "end")
        and not is_known
    ):
        yield f"is set or param missing before {whole[0].text}?", True


def doubled(diagnostic: Diagnostic) -> Hints:
    words, here = [word[0] for word in TOKEN.finditer(diagnostic.before)][-2:], diagnostic.word()
    if here == ";" and words[-1:] == [";"]:
        yield "is this ; one too many?", True
    elif here and words[-1:] == [here] and re.match(r"\w", here):
        yield f"is {here} written twice?", True
    elif len(words) == 2 and words[0] == words[1] and re.match(r"\w", words[0]):
        yield f"is {words[0]} written twice?", True


def uneven(diagnostic: Diagnostic) -> Hints:
    """Rows of a table or list with another number of cells than is expected, or than most have."""
    whole = diagnostic.statement() if diagnostic.text == "data" and not diagnostic.is_change() else []
    cut = next((here for here, token in enumerate(whole) if token.text == ":="), None)
    if cut is None or re.fullmatch(r"\d+-\d+", diagnostic.word()):
        return
    rows: dict[int, list[Token]] = {}
    for token in whole[cut + 1 :]:
        if token.text != ";":
            rows.setdefault(token.row, []).append(token)
    cells = {row: sum(token.text != "," for token in line) for row, line in rows.items()}
    counts = sorted(cells.values())
    usual = wanted_cells(whole[:cut]) or next(
        (count for count in counts if 2 * counts.count(count) > len(counts) > 2), 0
    )
    whole_rows = [[token for token in line if token.text != ","] for line in rows.values()]
    heading = (
        heading_fault(diagnostic, whole[:cut], whole_rows, wanted_cells(whole[:cut]))
        if diagnostic.number == "E21"
        else ""
    )
    if heading:
        yield heading, True
        return
    if not usual or counts[-1] > 2 * usual - 2 > 0:
        found = misfit(diagnostic, whole[:cut], [token for line in whole_rows for token in line])
        # A digit that is written as a letter is the mistake, and no cell is missing.
        if found and not any(True for _ in almost_number(diagnostic)):
            yield found, True
        return
    for row in [row for row, count in cells.items() if count != usual][:3]:
        comma = cells[row] > usual and any(token.text == "," for token in rows[row])
        yield f"{diagnostic.line_text(row)} has {cells[row]} cells, and {usual} are expected" + (
            ": is a comma part of a number?" if comma else ""
        ), True


def wanted_cells(head: list[Token]) -> int:
    """Returns the cells of a row of `param NAME: COLUMN .. :=`; 0 if the heading does not say."""
    marks = [here for here, token in enumerate(head) if token.text == ":"]
    named = len(marks) == 1 and marks[0] > 1
    return sum(token.text != "," for token in head[marks[0] + 1 :]) + 1 if named else 0


def misfit(diagnostic: Diagnostic, head: list[Token], cells: list[Token]) -> str:
    """In a list whose rows are not one a line: the first row with a text for a number, with the number of keys that
    fits best."""
    marks = [here for here, token in enumerate(head) if token.text == ":"]
    values = sum(token.text != "," for token in head[marks[-1] + 1 :]) if marks else 1
    if head[0].text != "param" or len(cells) < 3:
        return ""
    fits = []
    for keys in [1] if wanted_cells(head) else range(1, 5):
        size = keys + values
        first = fitting([cells[here : here + size] for here in range(0, len(cells), size)], keys, size)
        last = fitting([cells[max(0, here - size) : here] for here in range(len(cells), 0, -size)], keys, size)
        fits.append((min(first + last, len(cells)), -keys, first))
    place = max(fits)[2]
    if place == len(cells):
        return ""
    return (
        f"in {diagnostic.line_text(cells[place].row)} the cells from {cells[place].text} on do not fit: is a cell"
        " missing there, or one too many before?"
    )


def fitting(rows: list[list[Token]], keys: int, size: int) -> int:
    """Returns how many cells come before the first row that is short or has a text for a value."""
    count = 0
    for row in rows:
        if len(row) < size or not all(re.fullmatch(r"[+-]?[0-9.]+", token.text) for token in row[keys:]):
            break
        count += size
    return count


def named(diagnostic: Diagnostic) -> set[str]:
    """Returns the words of the data that name members outside the error's line: of sets, of headings, and at the start
    of rows."""
    found, word, is_heading, last = set(), "", False, 0
    for token in tokens(diagnostic.texts.get("data", "")):
        if token.text == ";":
            word = ""
        elif not word:
            word, is_heading = token.text, False
        else:
            is_heading = (is_heading or token.text == ":") and token.text != ":="
            if token.row != diagnostic.row and (word == "set" or is_heading or token.row != last):
                found.add(token.bare())
        last = token.row
    return found


def listed(diagnostic: Diagnostic) -> dict[str, list[Token]]:
    """Returns the members that the data list for each set, as tokens."""
    result: dict[str, list[Token]] = {}
    words = list(tokens(diagnostic.texts.get("data", "")))
    for here in range(len(words) - 2):
        if words[here].text == "set" and words[here + 2].text == ":=":
            row = result.setdefault(words[here + 1].text, [])
            for token in words[here + 3 :]:
                if token.text == ";":
                    break
                row += [token] if token.text not in "(),*" else []
    return result


def unknown_member(diagnostic: Diagnostic) -> Hints:
    """A key of sets that are not plain with a member that no set lists, which is misspelt; else perhaps the members are
    exchanged."""
    if list(outside_set(diagnostic)) or list(missing_in_set(diagnostic)):
        return
    members = [bare(part) for part in MEMBER.findall(diagnostic.detail.partition("[")[2])]
    sets = {token.bare() for row in listed(diagnostic).values() for token in row}
    in_model = [part for part in diagnostic.words("model") if re.fullmatch(r"[A-Za-z_]\w*", part)]
    found = False
    for member in [part for part in members if sets and part not in sets and not part.lstrip("-").isdigit()]:
        others = near(member, list(sets)) or [
            part for part in difflib.get_close_matches(member, in_model, 2, 0.8) if part != member
        ]
        if others:
            found = True
            yield f"{member}: is {others[0]} meant?", True
            yield from heading_place(diagnostic, member)
    if (
        not found
        and diagnostic.text == "data"
        and len(members) == 2
        and set(members) <= named(diagnostic)
        and not set(members) <= sets
    ):
        yield "are the two members exchanged? In a table (tr) before the : turns rows and columns", False


def declared(diagnostic: Diagnostic) -> set[str]:
    words = diagnostic.words("model")
    return {words[here + 1] for here in range(len(words) - 1) if words[here] in DECLARING}


def indices(words: list[Token]) -> Iterator[str]:
    """Yields the indices that braces declare: the names before `in`, in parentheses too."""
    for here, token in enumerate(words):
        if token.text != "in" or not here:
            continue
        at = here - 1
        if words[at].text == ")":
            while at and words[at].text != "(":
                at -= 1
        yield from (part.text for part in words[at:here] if re.fullmatch(r"[A-Za-z_]\w*", part.text))


def declared_below(diagnostic: Diagnostic, name: str) -> int:
    """Returns the line after the error in which a name is declared; 0 if there is none."""
    words = list(tokens(diagnostic.texts.get("model", "")))
    return next(
        (
            token.row
            for before, token in zip(words, words[1:])
            if before.text in DECLARING and token.text == name and token.row > diagnostic.row
        ),
        0,
    )


def declared_as(diagnostic: Diagnostic, kind: str) -> set[str]:
    words = diagnostic.words("model")
    return {name for word, name in zip(words, words[1:]) if word == kind}


def members_in_data(diagnostic: Diagnostic) -> set[str]:
    return {token.bare() for row in listed(diagnostic).values() for token in row}


def late(diagnostic: Diagnostic) -> Hints:
    """A name that is declared after its use."""
    row, statement = declared_below(diagnostic, diagnostic.detail), diagnostic.statement()
    if not row or diagnostic.text != "model" or not statement:
        return
    if statement[0].text == "node" and diagnostic.detail in declared_as(diagnostic, "arc"):
        return
    if statement[0].text in ("minimize", "maximize"):
        yield (
            f"{diagnostic.detail} is declared below, in line {row}: move the objective after its arcs, or use obj"
            " in the arcs",
            True,
        )
    else:
        yield f"{diagnostic.detail} is declared below, in line {row}: move that declaration up", True


def changed_kind(diagnostic: Diagnostic) -> Hints:
    """A change whose value is a text for a number, or the other way round."""
    if diagnostic.instance is not None and diagnostic.is_change():
        name, _, value = diagnostic.instance.value_at(diagnostic.row)
        if isinstance(value, str) and re.fullmatch(r"[+-]?\d+,\d+", value):
            yield f"{value}: is {value.replace(',', '.')} meant? Decimals have a point", True
        elif isinstance(value, str):
            yield f"{value!r} is a text, and {name} is a number: give a number, or declare {name} symbolic", True
        elif value is not None:
            yield f"{name} is symbolic: give a text, not a number", True


def almost_number(diagnostic: Diagnostic) -> Hints:
    word = diagnostic.word().rstrip(";")
    meant = word.translate(str.maketrans("OoIl", "0011"))
    if diagnostic.text == "data" and meant != word and meant.isdigit():
        yield f"{word}: is {meant} meant?", True
    elif diagnostic.text == "data" and word in ("Infinity", "inf", "Inf"):
        yield "for no limit write a number that no plan reaches, or call a tool with --bounds", True


def large_number(diagnostic: Diagnostic) -> Hints:
    yield "if it means no limit, write a number that no plan reaches, such as the sum of all supplies", False


def gain(diagnostic: Diagnostic) -> Hints:
    """A number after an end of an arc."""
    is_end = re.search(r"\b(?:from|to)\s+\w+(?:\[[^\]]*\])?\s*$", diagnostic.before)
    if diagnostic.text == "model" and is_end and diagnostic.word() not in declared_as(diagnostic, "node"):
        yield (
            "a number after an end of an arc is a gain, and no network has gains: what leaves one end arrives at"
            " the other",
            True,
        )


def fraction(diagnostic: Diagnostic) -> Hints:
    word = diagnostic.word().rstrip(",;")
    if diagnostic.text == "data" and re.fullmatch(r"[0-9]{1,3}(\.[0-9]{3})+", word):
        yield f"{word}: is {word.replace('.', '')} meant? A point begins decimals", False
    if diagnostic.instance is None:
        yield "the tools and Python take decimals: netflow-plan MODEL DATA", False
    elif diagnostic.instance.unread:
        yield f"{diagnostic.instance.unread}, which decimals need: write this part in another form", True
    elif diagnostic.text == "data" and not diagnostic.is_change():
        yield f"decimals are scaled in values; a member or a key with a point needs quotes: '{word}'", False


def comma_in_number(diagnostic: Diagnostic) -> Hints:
    """A second value after a comma."""
    before = diagnostic.before.rstrip()
    if (
        diagnostic.text == "data"
        and before.endswith(",")
        and re.search(r"\d\s*,$", before)
        and diagnostic.word()[:1].isdigit()
    ):
        first = before.rstrip(",").split()[-1]
        second = diagnostic.word().rstrip(";")
        if re.fullmatch(r"\d{3}", second):
            yield f"is the comma part of a number? Write {first}{second} without it", True
        else:
            yield f"is the comma part of a number? Decimals have a point: {first}.{second}", True


def speaking(diagnostic: Diagnostic) -> Hints:
    """The lines of the data that name what the detail names; those with its whole key, if there are such."""
    name, _, key = diagnostic.detail.partition("[")
    members = {bare(part) for part in MEMBER.findall(key)}
    if diagnostic.text != "model" or not name or not diagnostic.texts.get("data"):
        return
    rows: dict[int, set[str]] = {}
    inside, first = False, 0
    for token in tokens(diagnostic.texts["data"]):
        inside = token.text != ";" and (inside or token.text == name)
        first = first or (token.row if inside else 0)
        if inside:
            rows.setdefault(token.row, set()).add(token.bare())
    whole = [row for row, words in rows.items() if members and members <= words]
    whole = [row for row in whole if diagnostic.instance is not None and diagnostic.instance.change_at(row)] or whole
    some = sorted((row for row, words in rows.items() if members & words), key=lambda row: -len(members & rows[row]))
    if rows:
        is_change = diagnostic.instance is not None and diagnostic.instance.change_at(first)
        place = diagnostic.rows_text((whole or some or [first])[:3])
        yield f"see {name} in {place}{'' if is_change else ' of the data'}", False


def no_data(diagnostic: Diagnostic) -> Hints:
    if diagnostic.text != "model" or list(tokens(diagnostic.texts.get("data", ""))):
        return
    if diagnostic.known_paths.get("data") in (None, os.devnull):
        yield "there are no data: give a data file, or the values from Python", True
    else:
        yield "the data are empty: is the second file the right one?", True


def failed_check(diagnostic: Diagnostic) -> Hints:
    words = [token.text for token in diagnostic.statement()]
    text, again = (
        " ".join(words).replace("> =", ">=").replace("< =", "<="),
        "netflow-why MODEL DATA asks again without this check",
    )
    signs = [match[0] for match in re.finditer(r"<=|>=|<>|!=|(?<!:)=|<|>", text.replace(":=", ""))]
    is_lone = len(signs) == 1 and not {"and", "or", "not", "if"} & set(words)
    if words.count("sum") >= 2 and signs == ["="]:
        yield f"the two sums differ: {again} and says how much is short", True
    elif is_lone and signs[0] in ("<=", "<", ">=", ">"):
        side, size = ("left", "right") if signs[0][0] == ">" else ("right", "left"), "small"
        yield f"the {side[0]} side of {signs[0]} is too {size}, or the {side[1]} side too large: {again}", True
    else:
        yield again, False


HINTS: HintTable = (
    (("E20", "E01", "E21"), sheet),
    (("E20",), joined),
    (("E20",), doubled),
    (("E20",), unended_statement),
    (("E21", "E36", "E37"), uneven),
    (("E31", "E20"), comma_in_number),
    (("E36",), changed_kind),
    (("E36",), almost_number),
    (("E05",), large_number),
    (("E04", "E15"), gain),
    (("E04",), fraction),
    (("E33", "E50"), unknown_member),
    (("E12",), late),
    (("E32",), no_data),
    (("E31", "E32", "E34", "E53", "E54"), speaking),
    (("E35",), failed_check),
)
