"""The definitions that a theorem cites, directly or through others: each with its lines, and whether a second,
independent definition exists."""
import re

from lib.command import TOP

CRATES = TOP / "crates"
MAIN_THEOREM = ["net_driver/specs/IsBuilt.antt:IsBuilt", "net_driver/specs/IsSolved.antt:IsSolved"]
# The same theorem by the meaning of the inputs: the clauses `means`.
MEANS = ["net_driver/specs/Meaning.antt:IsCompilation", "net_driver/specs/Meaning.antt:IsSolution"]
WORD = re.compile(r"[A-Za-z_][\w'-]*(?:\.[A-Za-z_][\w'-]*)?")
USE = re.compile(r"^(?:pub )?use (\w[\w.]*?)(?:\.\{([^}]*)\})?(?: as (\w+))?$", re.M)
SPECS = re.compile(r"Rattle\.(\w+)\.specs\.(.+)")
TYPE = re.compile(r"declared\.([\w.]+?)\.(\w+?)(?:\.TheVariants)?")
NAMED = re.compile(r"^ {0,2}(?:(?:abbrev|unfoldable|pub|record|data) )*([A-Za-z_◌][^\s(){}:]*)(?: .*)?:", re.M)
PART = re.compile(r"[^\s(){}\[\],;.]+")
BOUND = [re.compile(pattern) for pattern in (r"λ ([^.]*)\.", r"[({]([\w\s'-]+?) :", r"\blet ([\w'-]+)")]
# The lines above a definition that belong to it: comments, and how its operator groups.
ABOVE = ("--", "infix")
HEAD = re.compile(r"(?:abbrev|unfoldable|pub|record|data|mutual)\b|[a-z_◌]\S* :")


class Definition:
    """A definition with the comment above it: its file, its names, and its lines with their numbers."""

    def __init__(self, path, lines):
        self.path, self.lines, self.names = path, lines, []

    def __len__(self):
        return len(self.lines)

    @property
    def first(self):
        return self.lines[0][0]

    @property
    def last(self):
        return self.lines[-1][0]

    def texts(self):
        return [text for _, text in self.lines]

    def body(self):
        """Returns the lines without what is above the definition, as one text."""
        return "\n".join(text for text in self.texts() if not text.startswith(ABOVE))

    def head(self):
        return self.body().partition("\n")[0]


class Spec:
    """A file of definitions by name, and where its imported names come from: other files of definitions, types of the
    code, and the standard library."""

    def __init__(self, path, crates):
        self.path, self.crates, self.blocks, self.names, self.aliases = path, crates, {}, {}, {}
        self.types: dict[str, tuple[str, str, str]] = {}
        self.words: dict[str, tuple[str, str]] = {}
        text = path.read_text(encoding="utf-8")
        for module, listed, alias in USE.findall(text):
            items = [item.strip().partition(" as ") for item in listed.split(",") if item.strip()]
            self.take_use(module, [(local or name, name) for name, _, local in items], alias)
        self.take_blocks(text)

    def take_use(self, module, names, alias):
        """Adds the names of a `use` line, each as a pair of its local name and its own."""
        found = SPECS.fullmatch(module)
        crate, rest = (found[1], found[2]) if found else ("", module)
        target = self.crates / crate / "specs" / f"{rest.split('.')[0]}.antt"
        if found and (made := TYPE.fullmatch(rest)) and (self.crates / crate).is_dir():
            local_names = [alias] if alias else [local for local, _ in names]
            self.types.update({local: (crate, made[1], made[2]) for local in local_names})
        elif found and target.exists():
            if alias:
                self.aliases[alias] = target
            self.names.update({local: (target, name) for local, name in names})
        else:
            self.words.update({local: (module, name) for local, name in names})

    def take_blocks(self, text):
        """Splits the file into definitions, each with the comment above it and its equations; a `mutual` is one."""
        chunk: list[tuple[int, str]] = []
        remark: list[tuple[int, str]] = []
        lines = [at for at in enumerate(text.splitlines(), 1) if not at[1].startswith(("use ", "pub use "))]
        for number, line in [*lines, (0, "\0")]:
            begins = (
                line[:1] not in (" ", "")
                and not line.startswith(ABOVE)
                and HEAD.match(line)
                and not self.goes_on(chunk, line)
            )
            if begins or line.startswith((*ABOVE, "\0")):
                if chunk:
                    self.keep(chunk)
                    chunk = []
                remark = [*remark, (number, line)] if line.startswith(ABOVE) else remark
                if begins:
                    chunk, remark = [*remark, (number, line)], []
            elif line.strip():
                chunk.append((number, line))
            else:
                remark = []

    @staticmethod
    def goes_on(chunk, line):
        """Returns whether the line is an equation of the current definition and not a new one."""
        name = next((m[1] for _, line in chunk if (m := NAMED.match(line))), None)
        return name is not None and line.split()[0] == name

    def keep(self, chunk):
        made = Definition(self.path, chunk)
        names = NAMED.findall(made.body())
        made.names = names[:1] if not any("mutual" in line for _, line in chunk) else names
        for name in made.names:
            self.blocks[name] = made
        if any(re.match(r"(?:pub )?data ", line) for _, line in chunk):
            for name in re.findall(r"(?m)^  ([a-z_]\w*) :", "\n".join(made.texts())):
                self.blocks.setdefault(name, made)


def cited(definition):
    """Returns the names that a definition cites, without those that it binds in the head of an equation or after λ."""
    text = definition.body()
    bound = {word for pattern in BOUND for found in pattern.findall(text) for word in found.split()}
    names = set(NAMED.findall(text))
    for line in definition.texts():
        front, equals, _ = line.partition(" = ")
        if equals and line.split()[0] in names and " : " not in front:
            bound.update(WORD.findall(front)[1:])
    return [word for word in WORD.findall(text) if word.partition(".")[0] not in bound]


def uses(text, operator):
    """Returns whether a text uses an operator, such as ◌≡◌ with ◌ for its operands, or a sign such as ℕ."""
    parts = {part for part in operator.split("◌") if part}
    return bool(parts) and parts <= set(PART.findall(text))


class Reading:
    """The definitions reached so far, each once, by file in the order of reaching them."""

    def __init__(self, crates=CRATES):
        self.crates, self.specs, self.reached = crates, {}, {}
        self.starts: list[Definition] = []
        self.left_out: list[Definition] = []

    def spec(self, path):
        if path not in self.specs:
            self.specs[path] = Spec(path, self.crates)
        return self.specs[path]

    def follow(self, path, name):
        todo = [(path, name)]
        while todo:
            path, name = todo.pop(0)
            spec = self.spec(path)
            block = spec.blocks.get(name)
            if block is None or any(block is other for other in [*self.left_out, *self.reached.get(path, [])]):
                continue
            self.reached.setdefault(path, []).append(block)
            for word in cited(block):
                first, _, second = word.partition(".")
                if first in spec.aliases and second:
                    todo.append((spec.aliases[first], second))
                elif first in spec.names:
                    todo.append(spec.names[first])
                elif first in spec.blocks:
                    todo.append((path, first))
            todo += self.operators(spec, block.body())

    @staticmethod
    def operators(spec, text):
        """Returns the file and the name of each operator that a text uses."""
        known = {**{name: (spec.path, name) for name in spec.blocks}, **spec.names}
        return [place for name, place in known.items() if "◌" in name and uses(text, name)]

    def named(self, name):
        """Returns the definition that NAME or FILE:NAME means, among those reached."""
        file, colon, own = name.rpartition(":")
        paths = [self.crates / file] if colon else list(self.reached)
        found = [block for path in paths for block in self.reached.get(path, []) if own in block.names]
        if len(found) != 1:
            places = ", ".join(f"{block.path.relative_to(self.crates)}:{own}" for block in found)
            raise ValueError(f"{own} has several definitions: give one of {places}" if found else f"no {name} is cited")
        return found[0]

    def rows(self):
        """Returns for each file its name below crates/, the number of definitions reached, and their lines."""
        return [
            (str(path.relative_to(self.crates)), len(blocks), sum(map(len, blocks)))
            for path, blocks in self.reached.items()
        ]

    def rank(self, block):
        """Returns a key that orders the definitions of a file: those that the reading starts from come first."""
        return block not in self.starts, block.first

    def places(self):
        """Returns the file and the first line of each definition reached."""
        return {(block.path, block.first) for blocks in self.reached.values() for block in blocks}


def read(starts=MAIN_THEOREM, without=(), crates=CRATES):
    """Returns the definitions that these starts reach. Those of `without` are left out, with what only they reach."""
    reading = Reading(crates)
    if without:
        complete = read(starts, (), crates)
        reading.specs, reading.left_out = complete.specs, [complete.named(name) for name in without]
    for start in starts:
        file, _, name = start.partition(":")
        if not (crates / file).is_file() or name not in reading.spec(crates / file).blocks:
            raise ValueError(f"there is no definition {start}")
        reading.starts.append(reading.spec(crates / file).blocks[name])
    for start in starts:
        file, _, name = start.partition(":")
        reading.follow(crates / file, name)
    return reading


def stated_twice(means=MEANS, value=MAIN_THEOREM, crates=CRATES):
    """Returns the places of the definitions that only one of the two clauses cites. A theorem connects the clauses, so
    it compares these definitions with those of the other clause; what both cite, it compares with nothing."""
    return read(means, (), crates).places() ^ read(value, (), crates).places()
