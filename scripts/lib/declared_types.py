"""The types of the code that definitions cite as `specs.declared.FILE.TYPE`: their declarations, with doc comments and
with what contracts see of them."""
import re

from lib.definitions import WORD, Reading, Spec

DECLARED = re.compile(r"^pub(?:\(crate\))? (struct|enum) (\w+)", re.M)
VIEW = re.compile(r"^impl.* Model for (\w+)\b")
GHOST = re.compile(r"^\s+ghost (?:Value|view) = ")
VALUE = re.compile(r"^\s+ghost use Rattle\.(\w+)\.specs\.(\w+)\.\{([^}]*)\};")
GHOST_USE = re.compile(r"(?m)^ghost use Rattle\.(\w+)\.specs\.(\w+)\.\{([^}]*)\};")
USED = re.compile(r"(?m)^use (?:crate|(\w+))::(?:\w+::)*(?:\{([^}]*)\}|(\w+));")


class CodeType:
    """A declaration of the code: its lines, those that say what contracts see of its values (none if they see its
    fields), and the records of `specs/` that are its values."""

    def __init__(self, path, name, first, lines):
        self.path, self.name, self.first, self.lines = path, name, first, lines
        self.view: list[str] = []
        self.records: list = []
        # The definitions that its ghost fields are the first to cite.
        self.invariants: list = []

    def texts(self):
        return [*self.lines, *self.view, *(text for record in self.records for text in record.texts())]

    def __len__(self):
        return len(self.texts())

    def mentioned(self):
        """Returns the words in its fields' types, or in those of its view, which hides the fields."""
        if self.view:
            return [word for line in self.view for word in WORD.findall(line) if " Value = " in line]
        body = "\n".join(line.split("//")[0] for line in self.lines if "ghost " not in line)
        body = body.partition("{")[2] or body.partition("(")[2]
        parts = re.findall(r":([^,]*(?:,[^:{}]*>)?)|\(([^)]*)\)", body)
        return re.findall(r"\w+", " ".join(part for pair in parts for part in pair))


class Types:
    """Finds the types of a tree of crates."""

    def __init__(self, crates):
        self.crates, self.texts = crates, {}

    def text(self, path):
        if path not in self.texts:
            self.texts[path] = path.read_text(encoding="utf-8")
        return self.texts[path]

    def find(self, crate, name, module="*"):
        """Returns a crate's type, from this file of src/ if it is there, or None."""
        last = module.split(".")[-1]
        own = sorted((self.crates / crate / "src").rglob(f"{last}.rt"))
        for path in [*own, *sorted((self.crates / crate / "src").rglob("*.rt"))]:
            if any(found[1] == name for found in DECLARED.findall(self.text(path))):
                return self.parse(path, name)
        return None

    def parse(self, path, name):
        lines = self.text(path).splitlines()
        here = next(at for at, line in enumerate(lines) if (m := DECLARED.match(line)) and m[2] == name)
        first = here
        while first and lines[first - 1].startswith(("///", "#[")):
            first -= 1
        last = here if lines[here].rstrip().endswith((";", "}")) else lines.index("}", here)
        made = CodeType(path, name, first + 1, [line for line in lines[first : last + 1] if not line.startswith("#[")])
        self.add_view(made, lines)
        return made

    def add_view(self, made, lines):
        """Adds what contracts see of a value of the type, if its file says so in an `impl Model`."""
        for at, line in enumerate(lines):
            if (found := VIEW.match(line)) and found[1] == made.name:
                own = lines[at : lines.index("}", at)]
                shown = [text for text in own if GHOST.match(text)]
                made.view = [line, *shown, "}"]
                made.records = list(self.records(own, " ".join(shown)))

    def records(self, lines, shown):
        """Yields the definitions of `specs/` that are the values of a type."""
        for crate, module, names in (found.groups() for found in map(VALUE.match, lines) if found):
            spec = self.spec(crate, module)
            for name in names.split(", "):
                if spec and name in spec.blocks and f"Value = {{ {name} }}" in shown:
                    yield spec.blocks[name]

    def spec(self, crate, module):
        path = self.crates / crate / "specs" / f"{module}.antt"
        return Spec(path, self.crates) if path.is_file() else None

    def cited_by(self, made):
        """Returns the definitions that a type's ghost fields cite, directly or through others."""
        words = {word for line in made.lines if "ghost " in line for word in WORD.findall(line)}
        reading = Reading(self.crates)
        for crate, module, names in GHOST_USE.findall(self.text(made.path)):
            path = self.crates / crate / "specs" / f"{module}.antt"
            for name in names.split(", "):
                if name in words and path.is_file():
                    reading.follow(path, name)
        return [block for blocks in reading.reached.values() for block in blocks]

    def named_in(self, made):
        """Returns the types that a type mentions: those of its file, of its crate, and those that its file imports."""
        crate = made.path.relative_to(self.crates).parts[0]
        origin = {}
        for other, listed, single in USED.findall(self.text(made.path)):
            for item in (listed or single).split(","):
                origin[item.strip()] = other or crate
        found = (
            self.find(origin.get(word, crate), word) for word in dict.fromkeys(made.mentioned()) if word[:1].isupper()
        )
        return [other for other in found if other is not None and other.name != made.name]


def cited_types(reading, definitions, types):
    """Returns for each definition, by file and first line, the types that it is the first to cite, each followed by the
    types of its fields."""
    seen, result, places = set(), {}, reading.places()
    for block in definitions:
        spec, mine = reading.specs[block.path], []
        words = (word.partition(".")[0] for word in WORD.findall(block.body()))
        todo = [
            types.find(crate, name, file) for crate, file, name in (spec.types[w] for w in words if w in spec.types)
        ]
        while todo:
            made = todo.pop(0)
            if made is not None and (made.path, made.name) not in seen:
                seen.add((made.path, made.name))
                made.records = [record for record in made.records if (record.path, record.first) not in places]
                places |= {(record.path, record.first) for record in made.records}
                made.invariants = [one for one in types.cited_by(made) if (one.path, one.first) not in places]
                places |= {(one.path, one.first) for one in made.invariants}
                mine.append(made)
                todo = types.named_in(made) + todo
        result[block.path, block.first] = mine
    return result
