"""Figures in the documents that a script can count."""
import re

from lib import definitions, reading_page
from lib.command import TOP

CRATES = TOP / "crates"
NUMBERS = "zero one two three four five six seven eight nine ten eleven twelve thirteen fourteen fifteen".split()
# Lines of a crate, without blank lines, comments and clauses, above which docs/decisions says why it is one crate.
LARGE = 1500
CLAUSE = re.compile(r"\s*(?:ensures|requires|invariant|ghost)\b")


def code_lines(text):
    """Returns how many lines of Rattle are neither blank nor a comment nor part of a clause or a `ghost` item."""
    count, depth = 0, 0
    for line in text.splitlines():
        bare = line.strip()
        braces = bare.count("{") - bare.count("}")
        if depth:
            depth = max(0, depth + braces)
        elif CLAUSE.match(line):
            depth = max(0, braces)
        elif bare and not bare.startswith("//"):
            count += 1
    return count


def sizes():
    """Returns the lines of each crate by its name, without those of tests and measurements."""
    names = [name for name in reading_page.crate_names() if name not in ("net_tests", "net_bench")]
    return {
        name: sum(code_lines(path.read_text(encoding="utf-8")) for path in (CRATES / name / "src").rglob("*.rt"))
        for name in names
    }


def listed(names, mark=""):
    """Returns names as a sentence lists them."""
    names = [f"{mark}{name}{mark}" for name in sorted(names)]
    return ", ".join(names[:-1]) + " and " + names[-1] if len(names) > 1 else "".join(names)


def large_crates():
    return listed(name for name, size in sizes().items() if size > LARGE)


def repeated_names():
    names = [path.name for path in CRATES.glob("*/src/**/*.rt")]
    return listed({name for name in names if names.count(name) > 1}, "`")


def lines_for_means(*crates):
    """Returns the number of lines that the clauses `means` cite, of these crates or of all."""
    rows = definitions.read(definitions.MEANS).rows()
    return sum(row[2] for row in rows if not crates or row[0].partition("/")[0] in crates)


def libraries():
    """Returns the toolchain's crates that crates.txt names."""
    lines = (line.split("#")[0] for line in (TOP / "crates.txt").read_text(encoding="utf-8").splitlines())
    used = {word for line in lines for word in line.partition(":")[2].split()}
    return used - set(reading_page.crate_names())


def recipes():
    """Returns the number of recipes of the guide for Python."""
    page = (TOP / "docs/guide/python.md").read_text(encoding="utf-8")
    return len(re.findall(r"(?m)^### \d+\. ", page))


def length_limits():
    """Returns the limits of scripts/check_sizes as CONTRIBUTING.md has them."""
    script = (TOP / "scripts/check_sizes").read_text(encoding="utf-8")
    function, file = (re.search(rf"{name}_WARNS, {name}_FAILS = (\d+), (\d+)", script) for name in ("FUNCTION", "FILE"))
    return f"{function[1]} lines or a file more than {file[1]}, and fails above {function[2]} and {file[2]}"


DECISIONS, VERIFICATION = "docs/decisions/README.md", "docs/verification.md"
LENGTHS = r"if a function has more than (\d+ lines or a file more than \d+, and fails above \d+ and \d+)"
# A page, a sentence in it with the figure as its group, and the value of the figure.
FIGURES = (
    (DECISIONS, r"reads the relations alone, ([\d,]+) lines with their comments", lambda: f"{lines_for_means():,}"),
    (
        DECISIONS,
        r"of which (\d+) are in net_driver and net_meaning",
        lambda: lines_for_means("net_driver", "net_meaning"),
    ),
    (DECISIONS, r"Crates with more than ([\d,]+) lines", lambda: f"{LARGE:,}"),
    (DECISIONS, r"\(`scripts/check_sizes` prints them\), are ([a-z_, ]+)\.", large_crates),
    (DECISIONS, r"each occurs once, except for ([^.]+\.rt`(?:(?:, | and )[^., ]+\.rt`)*)", repeated_names),
    (DECISIONS, r"(\d+) crates; the path from", lambda: len(reading_page.crate_names())),
    (VERIFICATION, r"ports of (\w+) Rust crates", lambda: NUMBERS[len(libraries())]),
    (VERIFICATION, r"Rust crates \(([^)]*)\)", lambda: ", ".join(f"`{library}`" for library in sorted(libraries()))),
    (
        VERIFICATION,
        r"`proofs/Examples\.antt` of (\w+) crates",
        lambda: NUMBERS[len(list(CRATES.glob("*/proofs/Examples.antt")))],
    ),
    ("CONTRIBUTING.md", LENGTHS, length_limits),
    ("docs/contributing/proofs.md", LENGTHS, length_limits),
    ("README.md", r"with (\w+) recipes", lambda: NUMBERS[recipes()]),
)


def errors(page, text):
    """Yields the figures of a page, given its text, that are not those that are counted."""
    for name, sentence, value in FIGURES:
        if name == page:
            found = re.findall(sentence, text)
            if found != [str(value())]:
                yield f"{page}: '{sentence}' should have {value()}, and has {', '.join(found) or 'no such sentence'}"
