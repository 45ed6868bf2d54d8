"""The generated numbers of docs/verification.md: the table "Crate by crate", and the lines to read in each row of the
chapters of an audit."""
import re

from lib import definitions
from lib.chapters import CHAPTERS, place_of
from lib.command import TOP
from lib.definitions import CRATES, MEANS

# The stages of an audit, with the crates whose definitions belong to each.
STAGES = [
    ("claim", ["net_driver"]),
    ("meaning", ["net_meaning"]),
    ("model as written", ["net_inst", "net_linear"]),
    ("problem", ["net_normal", "net_check", "net_dimacs", "net_report"]),
    ("text to declarations", ["net_lex", "net_tree", "net_model", "net_names", "net_data"]),
    ("sets and parameters", ["net_bind"]),
    ("values", ["net_expr", "net_sets"]),
    ("errors", ["net_base"]),
]
# The file that an auditor opens first, if it is not the first one that the theorem reaches.
FIRST_FILES = {"net_inst": "net_inst/specs/AsWritten.antt"}
PAGE = TOP / "docs" / "verification.md"
BEGIN, END = "<!-- scripts/reading --write: begin -->", "<!-- scripts/reading --write: end -->"
# A row of a chapter: | [`FILE`](../crates/PATH) `NAME` to `NAME` | LINES | .. The names can be missing.
ROW = re.compile(r"(\| \[[^]]*\]\(\.\./crates/([\w/.]+)\)(?: `([^`]+)`)?(?: to `([^`]+)`)?) \| ([^|]*) \|")
# A definition or an example that a row names.
NAMED = re.compile(r"`((?:Is|Are|Has)[A-Z]\w*|[a-z]+(?:_[a-z0-9]+)+)`")
EXAMPLES = (
    "*/specs/*.antt",
    "*/proofs/Examples.antt",
    "net_meaning/proofs/Wrong*.antt",
    "net_meaning/proofs/Cities*.antt",
)
TOGETHER = re.compile(r"(\| together) \| (\d*) \|")


def crate_names():
    """Returns the crates of crates.txt, in its order."""
    lines = (line.split("#")[0].strip() for line in (TOP / "crates.txt").read_text(encoding="utf-8").splitlines())
    return [line.split(":")[0].split()[0] for line in lines if line]


def lines_in(reading, crate=None):
    """Returns the lines to read, in a crate or in all."""
    return sum(row[2] for row in reading.rows() if crate in (None, row[0].partition("/")[0]))


def crate_row(crate, stage, value, means, once):
    """Returns the row of a crate: what the two clauses cite of it, and what both share."""
    own, theirs = ([row for row in clause.rows() if row[0].partition("/")[0] == crate] for clause in (value, means))
    first = FIRST_FILES.get(crate) or next((row[0] for row in own + theirs), None)
    sizes = (
        len(own),
        sum(row[1] for row in own),
        lines_in(value, crate),
        lines_in(means, crate),
        lines_in(once, crate),
    )
    mutants = len(list((CRATES / crate / "must-fail").glob("*.edit")))
    start = f"`crates/{first}`" if first else ""
    return f"[{crate}](../crates/{crate}/README.md)", stage, *sizes, start, mutants


def shared(means, twice):
    """Returns the part of what the clauses `means` cite that no theorem compares with other definitions."""
    part = definitions.Reading(means.crates)
    for path, blocks in means.reached.items():
        part.reached[path] = [block for block in blocks if (path, block.first) not in twice]
    return part


def table():
    """Yields the table: a row for each crate, in the order of an audit, then crates that the theorem does not reach."""
    value, means, names = definitions.read(), definitions.read(MEANS), crate_names()
    once = shared(means, definitions.stated_twice())
    yield from (
        "| Crate | Stage | Files | Definitions | Lines to read | For `means` | Stated once | Start with | Mutants |",
        "|---|---|---|---|---|---|---|---|---|",
    )
    staged = [(stage, crate) for stage, crates in STAGES for crate in crates if crate in names]
    rest = [("", crate) for crate in names if crate not in {crate for _, crate in staged}]
    for stage, crate in staged + rest:
        yield "| " + " | ".join(map(str, crate_row(crate, stage, value, means, once))) + " |"
    rows, mutants = value.rows(), len(list(CRATES.glob("*/must-fail/*.edit")))
    sizes = (len(rows), sum(row[1] for row in rows), lines_in(value), lines_in(means), lines_in(once))
    yield "| " + " | ".join(map(str, ("together", "", *sizes, "", mutants))) + " |"


def example_names():
    """Returns the names of all definitions with their fields, and of the worked examples."""
    files = (path for pattern in EXAMPLES for path in CRATES.glob(pattern))
    return {
        name for file in files for name in re.findall(r"(?m)^[^\n:]*?(\w+)(?: [({][^\n]*)? :", file.read_text("utf-8"))
    }


class Chapters:
    """The chapters of the page, with the definitions that no row has had yet."""

    def __init__(self):
        self.errors, self.found, self.number, self.lines, self.names = [], [], None, 0, example_names()
        self.waiting: dict[int, list] = {number: [] for number in range(len(CHAPTERS) + 1)}
        for path, blocks in definitions.read(MEANS).reached.items():
            self.waiting[place_of(str(path.relative_to(CRATES)))[0]] += blocks

    def enter(self, line):
        """Enters the chapter that a heading of the page begins."""
        self.number, self.lines = None, 0
        for number, chapter in enumerate(CHAPTERS):
            if line == f"### {number + 1}. {chapter.question}":
                self.number = number
                self.found.append(number)

    def take(self, place, first, last):
        """Returns the number of lines of the definitions that a row is about, and where they are."""
        path = CRATES / place
        own = sorted((b for b in self.waiting[self.number] if path in (b.path, *b.path.parents)), key=lambda b: b.first)
        ends = [next((b.first for b in own if name in b.names), None) for name in (first, last or first) if name]
        if None in ends or not own:
            self.errors.append(f"{place} {first or ''} {last or ''}: nothing to read, or it has a row already")
            return "0"
        own = [b for b in own if not ends or ends[0] <= b.first <= ends[1]]
        self.waiting[self.number] = [b for b in self.waiting[self.number] if b not in own]
        files = {b.path for b in own}
        size = sum(map(len, own))
        self.lines += size
        where = f"{own[0].first}-{own[-1].last}" if files == {path} else f"{len(files)} file{'s' * (len(files) > 1)}"
        return f"{size} in {where}"

    def line(self, line):
        """Returns a line of the page with its numbers."""
        if line.startswith("#"):
            self.enter(line)
        elif self.number is not None and (row := ROW.match(line)):
            cells = line[row.end() :]
            self.errors += [
                f"no definition or example {name}" for name in NAMED.findall(cells) if name not in self.names
            ]
            return f"{row[1]} | {self.take(row[2], row[3], row[4])} |{line[row.end():]}"
        elif self.number is not None and (row := TOGETHER.match(line)):
            return f"{row[1]} | {self.lines} |{line[row.end():]}"
        return line

    def missing(self):
        """Yields the chapters without a heading, and the definitions without a row."""
        yield from self.errors
        yield from (f"no heading '{c.question}'" for number, c in enumerate(CHAPTERS) if self.found.count(number) != 1)
        for blocks in self.waiting.values():
            yield from (f"no row of a chapter has {b.path.relative_to(CRATES)}:{b.names[0]}" for b in blocks)


def with_numbers(page):
    """Returns the page with its generated numbers, and what is wrong with its chapters."""
    head, _, rest = page.partition(BEGIN)
    tail = rest.partition(END)[2]
    chapters = Chapters()
    lines = [chapters.line(line) for line in "\n".join((head + BEGIN, *table(), END + tail)).split("\n")]
    return "\n".join(lines), list(chapters.missing())


def errors():
    """Yields what is wrong with the generated numbers of docs/verification.md."""
    yield from errors_in(PAGE.read_text(encoding="utf-8"))


def errors_in(page):
    """Yields what is wrong with the generated numbers of the page, given its text."""
    if page.count(BEGIN) != 1 or page.count(END) != 1:
        yield "docs/verification.md: the markers of the generated table are missing"
        return
    wanted, wrong = with_numbers(page)
    yield from (f"docs/verification.md: {problem}" for problem in wrong)
    if page != wanted:
        yield "docs/verification.md: the generated numbers are not up to date; run scripts/reading --write"


def write():
    """Writes the generated numbers, and returns what is wrong with the chapters."""
    page, wrong = with_numbers(PAGE.read_text(encoding="utf-8"))
    PAGE.write_text(page, encoding="utf-8")
    return wrong
