"""The words of the standard library that definitions cite, with their definitions from the toolchain's own files."""
import re

from lib.declared_types import Types
from lib.definitions import cited, uses
from lib.notices import libraries_folder

__all__ = ["Library", "cited_words", "libraries_folder"]

# Where the toolchain keeps the modules of a library, below its folder of libraries, by the first part of their names.
FOLDERS = {"lib": "logic/Lib", "mathlib": "antt/port/mathlib/src", "native": "antt/lib/native/src"}
# The crates whose modules `Rattle.std` passes on.
PASSED_ON = ("std", "core", "std_alloc", "std_collections", "std_io")
PASSES = re.compile(r"^(?:unfoldable )?pub use (\S+?)\.\{([^}]*)\}", re.M)
MARKS = r"(?:(?:abbrev|unfoldable|opaque|pub) )*(?:(?:data|record) )?"
OTHER = re.compile(r"\s*(?:(?:abbrev|unfoldable|opaque|pub|data|record|use|module|mutual)\b|--|infix)")


def indent(line):
    return len(line) - len(line.lstrip())


class Library:
    """The modules of the toolchain."""

    def __init__(self, folder):
        self.folder, self.texts, self.types = folder, {}, Types(folder)

    def file_of(self, module):
        """Returns the file of a module; None for one that is built in."""
        first, _, rest = module.partition(".")
        if first == "Rattle":
            crate, _, rest = rest.partition(".specs.")
            places = [f"{name}/specs" for name in (PASSED_ON if crate == "std" else (crate,))]
        else:
            places = [FOLDERS[first]] if first in FOLDERS else []
        files = (self.folder / place / f"{rest.replace('.', '/')}.antt" for place in places)
        return next((file for file in files if file.is_file()), None)

    def lines_of(self, file):
        if file not in self.texts:
            self.texts[file] = file.read_text(encoding="utf-8")
        return self.texts[file]

    def find(self, module, name):
        """Returns the file, the first line and the lines of a definition; None for a word that is built in."""
        if ".specs.declared." in module:
            return self.find_type(module)
        file = self.file_of(module)
        if file is None:
            return None
        text = self.lines_of(file)
        for passed, names in PASSES.findall(text):
            for item in names.split(","):
                own, _, local = item.strip().partition(" as ")
                if (local or own) == name:
                    return self.find(passed, own)
        return self.definition(file, text.splitlines(), name)

    def find_type(self, module):
        crate, _, rest = module.removeprefix("Rattle.").partition(".specs.declared.")
        parts = rest.removesuffix(".TheVariants").split(".")
        made = self.types.find(crate, parts[-1], ".".join(parts[:-1]))
        return (made.path, made.first, [line for line in made.lines if " ghost " not in line]) if made else None

    def definition(self, file, lines, name):
        head = re.compile(rf"\s*{MARKS}(?:[^\s:→=(){{}}]+ )*?{re.escape(name)}(?: [^=]*)? :")
        found = (at for at, line in enumerate(lines) if head.match(line) and not line.lstrip().startswith("--"))
        at = next(found, None)
        return None if at is None else self.cut(file, lines, at, name)

    def cut(self, file, lines, at, name):
        """Cuts the definition out of the file: with the comment above it, up to a blank line or the next definition. A
        constructor is shown with its type."""
        depth = indent(lines[at])
        above = next((line for line in range(at, -1, -1) if lines[line].strip() and indent(lines[line]) < depth), at)
        if re.match(r"\s*(?:pub )?data\b", lines[above]):
            at, depth, name = above, indent(lines[above]), ""
        last = at + 1
        while last < len(lines) and lines[last].strip() and not self.is_next(lines[last], depth, name):
            last += 1
        while at and lines[at - 1].strip().startswith("--"):
            at -= 1
        return file, at + 1, lines[at:last]

    @staticmethod
    def is_next(line, depth, name):
        """Returns whether a line begins another definition."""
        begins = re.match(r"\s*(\S+) :", line)
        return indent(line) <= depth and bool(OTHER.match(line) or (begins and begins[1] != name))


def cited_words(reading, definitions):
    """Returns the words of the standard library that the definitions cite, each with its module, in order of use."""
    words: dict[tuple[str, str], None] = {}
    for block in definitions:
        text, names = block.body(), set(cited(block))
        for local, place in reading.specs[block.path].words.items():
            is_variable = local[:1].islower() and local.isidentifier() and local not in names
            if place not in words and not is_variable and (uses(text, local) or (local == "[]" and local in text)):
                words[place] = None
    return list(words)
