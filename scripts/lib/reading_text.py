"""The definitions that a theorem cites as one text, in the order of reading, with the types of the code and the words
of the standard library that they cite."""
import re
import textwrap

from lib import chapters, library_words
from lib.command import TOP
from lib.declared_types import Types, cited_types
from lib.definitions import cited

PAGE = TOP / "docs" / "verification.md"
WIDTH = 120
TWICE, ONCE = "stated twice", "stated once"
MARKS = f"""Each definition has a mark. "{TWICE}": a theorem compares it with independent definitions of the same thing,
which the code follows. "{ONCE}": these definitions cite it too, so no theorem compares it with anything, and eyes and
examples alone guard it. A type of the code is after the first definition that cites it, with what its `ghost` fields,
which are invariants, are the first to cite; an `impl Model` says what contracts see of its values. The words of the
standard library that a chapter is the first to cite are at its end; `rt lemma WORD` prints those that they cite in
turn."""


def filled(text, indent=""):
    return textwrap.fill(" ".join(text.split()), WIDTH, initial_indent=indent, subsequent_indent=indent)


def heading(text, line):
    return [text, line * len(text), ""]


def promise():
    """Returns the main theorem as docs/verification.md states it."""
    section = PAGE.read_text(encoding="utf-8").partition("\n## Main theorem\n")[2]
    return re.sub("[*`]", "", section.strip().partition("\n")[0])


def notation():
    """Yields the rows of the page's table of notation."""
    table = PAGE.read_text(encoding="utf-8").partition("| Notation | Meaning |\n")[2].partition("\n\n")[0]
    for row in table.splitlines()[1:]:
        signs, meaning = row.strip("| ").split(" | ", 1)
        yield from (signs.replace("`", ""), filled(meaning.replace("`", ""), "    "))


def opening(starts, reading, is_main):
    """Yields the lines before the first chapter."""
    yield from heading("The definitions that an auditor reads", "=")
    if is_main:
        yield from (filled(promise()), "")
    yield filled(f"The definitions below are those that these cite, directly or through others: {', '.join(starts)}.")
    for block in reading.left_out:
        left = f"{block.path.relative_to(reading.crates)}:{block.names[0]}"
        yield filled(f"Left out, with everything that only it cites: {left}.")
    yield from ("", filled(MARKS), "", *heading("Notation", "-"), *notation(), "")


def file_comment(path):
    """Returns the comment at the top of a file of definitions."""
    text = path.read_text(encoding="utf-8")
    return re.match(r"(?:--.*\n)*", text)[0].splitlines() if text.startswith("--") else []


class Text:
    """The text: its lines, and what it has printed."""

    def __init__(self, starts, reading, twice, is_main):
        self.starts, self.reading, self.twice, self.is_main = starts, reading, twice, is_main
        self.blocks = [block for _, files in chapters.in_order(reading) for _, own in files for block in own]
        self.types = cited_types(reading, self.blocks, Types(reading.crates))
        folder = library_words.libraries_folder()
        self.library = library_words.Library(folder) if folder else None
        self.words: dict[tuple[str, str], int] = {}
        self.seen: set[tuple] = set()

    def lines(self):
        yield from opening(self.starts, self.reading, self.is_main)
        for chapter, files in chapters.in_order(self.reading):
            size = sum(len(block) for _, own in files for block in own)
            yield from heading(f"{chapters.number_of(chapter)}. {chapter.question} ({size} lines of definitions)", "=")
            for path, own in files:
                yield from self.file(path, own)
            yield from self.standard_words([block for _, own in files for block in own])
        yield self.totals()

    def file(self, path, own):
        """Yields a file: its comment, and each definition followed by the types that it is the first to cite."""
        name = path.relative_to(self.reading.crates)
        yield from (*heading(f"crates/{name}", "-"), *file_comment(path), *self.renamed(path, own), "")
        for block in own:
            yield f"[{name}:{block.first}-{block.last}] {self.mark(block)}"
            yield from (*block.texts(), "")
            for made in self.types[block.path, block.first]:
                yield f"[{made.path.relative_to(self.reading.crates)}:{made.first}] type of the code"
                yield from (*made.texts(), "")
                for cited_one in made.invariants:
                    at = cited_one.path.relative_to(self.reading.crates)
                    yield f"[{at}:{cited_one.first}-{cited_one.last}] cited by this type"
                    yield from (*cited_one.texts(), "")

    def renamed(self, path, own):
        """Yields the names that the file gives to definitions of other files, if these definitions cite them."""
        words = {word.partition(".")[0] for block in own for word in cited(block)}
        for local, (target, name) in sorted(self.reading.spec(path).names.items()):
            if local != name and local in words:
                yield f"-- Here {local} is {name} of {target.relative_to(self.reading.crates)}."

    def mark(self, block):
        return TWICE if (block.path, block.first) in self.twice else ONCE

    def standard_words(self, own):
        """Yields the words of the standard library that these definitions are the first to cite."""
        words = [word for word in library_words.cited_words(self.reading, own) if word not in self.words]
        self.words.update({word: 0 for word in words})
        if not words:
            return
        yield from heading("Words of the standard library", "-")
        if self.library is None:
            listed = ", ".join(name for _, name in words)
            yield from (filled(f"The toolchain is missing (no rt on the PATH), so they are listed only: {listed}."), "")
            return
        built_in = []
        for module, name in words:
            found = self.library.find(module, name)
            if found is None:
                built_in.append(name)
            elif found[:2] not in self.seen:
                self.seen.add(found[:2])
                self.words[module, name] = len(found[2])
                yield f"[{found[0].relative_to(self.library.folder)}:{found[1]}] {name}"
                yield from (*found[2], "")
        if built_in:
            yield from (filled(f"Built into the logic: {', '.join(built_in)}."), "")

    def totals(self):
        """Returns the last line."""
        made = [one for mine in self.types.values() for one in mine]
        invariants = sum(len(block) for one in made for block in one.invariants)
        types = f"{sum(map(len, made))} lines of {len(made)} types of the code, and {invariants} that these cite"
        parts = [counts(self.reading, self.twice), types]
        size = f"{sum(self.words.values())} lines of " if self.library else ""
        return "; ".join([*parts, f"{size}{len(self.words)} words of the standard library"])


def counts(reading, twice):
    """Returns how much is read, and how much of it is stated twice and once."""
    blocks = [block for own in reading.reached.values() for block in own]
    lines = {True: 0, False: 0}
    for block in blocks:
        lines[(block.path, block.first) in twice] += len(block)
    return (
        f"{sum(lines.values())} lines, {len(blocks)} definitions, {len(reading.reached)} files: "
        f"{lines[True]} lines {TWICE}, {lines[False]} lines {ONCE}"
    )
