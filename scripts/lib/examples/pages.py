"""The inputs that documents show."""
import pathlib
import re
import tempfile

from lib.command import TOP
from lib.examples.program import compare, rejected, run

ERRORS, MODELLING = "docs/reference/errors.md", "docs/guide/modelling.md"
TEXT = r"```\n((?:(?!```).*\n)*)```\n+"

# In an example this sign is a line feed.
LINE_FEED = " ⏎ "
EXAMPLE = re.compile(
    r"Example: `([^`]+)`(?: with the data `([^`]+)`)? gives `(E\d\d \w+ (model|data|problem|certificate)[^`]*)`"
)

WITHOUT_EXAMPLE = ["E06", "E07", "E56", "E59", "E61", "E90", "E91"]


def examples_of(page):
    """Returns the examples of the error reference: the model of a data file or "", the input, the error, and the
    input's kind."""
    found = [[part.replace(LINE_FEED, "\n") for part in parts] for parts in EXAMPLE.findall(page)]
    return [(above, text, line, kind) if text else ("", above, line, kind) for above, text, line, kind in found]


def check_errors_page(complaints):
    """Checks that each example of the error reference gives its error. An example is a model, data (with its model, or
    with another one), a problem, or a certificate."""
    model = TOP / "examples" / "one_arc" / "one_arc.mod"
    problem = TOP / "examples" / "foreign_problem" / "problem.min"
    page = (TOP / ERRORS).read_text(encoding="utf-8")
    found = examples_of(page)
    with tempfile.TemporaryDirectory() as folder:
        path = pathlib.Path(folder) / "text"
        words = {
            "model": ["compile", path, "/dev/null"],
            "data": ["compile", model, path],
            "problem": ["min", path],
            "certificate": ["check", problem, path],
        }
        for above, text, line, name in found:
            path.write_text(text, encoding="utf-8")
            other = pathlib.Path(folder) / "model"
            other.write_text(above, encoding="utf-8")
            compare(
                f"{ERRORS}: {line}",
                rejected(line, 3),
                run(["compile", other, path] if above else words[name]),
                complaints,
            )
    shown = {line.split()[0] for *_, line, _ in found}
    wanted = set(re.findall(r"(?m)^## (E\d\d) ", page)) - set(WITHOUT_EXAMPLE)
    complaints.extend(f"{ERRORS}: no example gives {number}" for number in sorted(wanted - shown))
    if page.count("Example:") != len(found):
        complaints.append(f"{ERRORS}: an example has no error")


def check_modelling_page(complaints):
    """Checks that each model of the modelling guide has the answer below it, or one of several, separated by empty
    lines."""
    page = (TOP / MODELLING).read_text(encoding="utf-8")
    blocks = re.findall(rf"{TEXT}```\n((?:(?!```).*\n)*)```", page)
    with tempfile.TemporaryDirectory() as folder:
        path = pathlib.Path(folder) / "model"
        for text, shown in blocks:
            path.write_text(text, encoding="utf-8")
            answers = [part.strip() + "\n" for part in shown.split("\n\n")]
            given = run(["solve", path, "/dev/null"])
            wanted = next((answer for answer in answers if answer.encode() == given[1]), answers[0])
            compare(f"{MODELLING}: {text.splitlines()[0]}", (0, wanted.encode(), b""), given, complaints)
    if page.count("\n```\n") != 4 * len(blocks):
        complaints.append(f"{MODELLING}: a block has no answer")


def check_described_errors(complaints):
    """Checks the errors whose input the reference describes in words."""
    cases = [
        (b"\xe9", "E06 NotUtf8 model 1:1"),
        (b"a" * 256, "E07 TextTooLong model 1:1"),
        (b"", "E56 NoObjective model 1:1"),
    ]
    with tempfile.TemporaryDirectory() as folder:
        path = pathlib.Path(folder) / "text"
        for text, line in cases:
            path.write_bytes(text)
            compare(line, rejected(line, 3), run(["compile", path, "/dev/null"]), complaints)
