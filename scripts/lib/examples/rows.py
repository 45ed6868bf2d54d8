"""The rows of examples/rows: small models and problems with their answers."""
import pathlib
import re
import tempfile

from lib.command import TOP
from lib.examples.program import compare, run


class Row:
    """A model with its data, the chosen objective and options, and the expected answer: lines by their signs."""

    def __init__(self, model, place):
        self.lines, self.place = {">": model, "|": [], "@": [], "!": [], "=": [], "+": [], "~": []}, place

    def text(self, sign):
        return "\n".join(self.lines[sign])


def rows_of(path):
    """Yields the rows of a file. A row begins with lines of a model, or after an answer, for the same model, with lines
    of data, an objective or an option."""
    row: Row = None
    for number, line in enumerate(path.read_text(encoding="utf-8").splitlines(), 1):
        sign = line[:1]
        if sign in ("", "#"):
            continue
        answered = row and any(row.lines[mark] for mark in "=+~")
        if row is None or answered and sign in ">|@!":
            if row:
                yield row
            row = Row([] if sign == ">" else row.lines[">"], f"{path.name}:{number}")
        row.lines[sign].append(line[2:])
    yield row


def whole(answer):
    """Returns what the program does to give an answer, an error line or the text of an output: status, standard output
    and error."""
    line = f"{answer}\n".encode()
    if re.match(r"E\d\d ", answer):
        return 4 if answer.startswith("E9") else 3, b"", line
    return 2 if answer.startswith("infeasible\n") else 0, line, b""


def row_answer(wanted, status, text, stderr):
    """Returns the answer of `compile` in the form of a row's answer; all of what the program did, if that is no
    answer."""
    line = stderr.decode(errors="replace").rstrip("\n")
    if (status, text, stderr) == whole(line) and line.startswith("E"):
        return line
    if status or stderr or not text.endswith(b"\n"):
        return f"status {status}, {text[:200]!r}, {stderr[:200]!r}"
    lines = text.decode().splitlines()
    if wanted.lstrip("-").isdigit():
        return lines[0].removeprefix("c constant ")
    nodes = [line.split(" ", 3)[3] for line in lines if line.startswith("c node ")]
    return "ok" if wanted == "ok" else " ".join(nodes) or "none"


def check_row(row, words, complaints):
    if row.lines["="]:
        found = row_answer(row.text("="), *run(["compile", *words]))
        if found != row.text("="):
            complaints.append(f"{row.place}: wanted {row.text('=')}, got {found}")
    for sign, call in (("+", "compile"), ("~", "solve")):
        if row.lines[sign]:
            given, answers = run([call, *words]), row.text(sign).split("\n\n")
            wanted = next((answer for answer in answers if whole(answer) == given), answers[0])
            compare(f"{row.place}: {call}", whole(wanted), given, complaints)


def check_rows(complaints):
    with tempfile.TemporaryDirectory() as folder:
        model, data = pathlib.Path(folder) / "row.mod", pathlib.Path(folder) / "row.dat"
        for path in sorted((TOP / "examples" / "rows").glob("*.txt")):
            for row in rows_of(path):
                model.write_text(row.text(">"), encoding="utf-8")
                data.write_text(row.text("|"), encoding="utf-8")
                chosen = [word for name in row.lines["@"] for word in ("--objective", name)]
                chosen += [f"--{option}" for option in row.lines["!"]]
                check_row(row, [*chosen, model, data], complaints)


def bytes_of(lines):
    """Returns the bytes of lines with line ends. `\\r`, `\\t`, `\\0` and `\\x20` are these bytes; a `\\` at the end of
    a line removes its line end."""
    return "".join(f"{line}\n" for line in lines).encode().decode("unicode_escape").encode("latin-1")


def answer_of(words, place, complaints):
    """Returns what `min` or `check` writes to either stream; its status must fit its first word."""
    status, text, stderr = run(words)
    answer = (stderr or text).decode(errors="replace").rstrip("\n")
    wanted = {"s": 0, "yes": 0, "x": 2, "no": 2}.get(answer.split()[0] if answer else "", 3)
    if status != wanted or text and stderr:
        complaints.append(f"{place}: {words[0]}: status {status}, {text!r}, {stderr!r}")
    return answer


def check_problem_row(row, problem, certificate, complaints):
    """Compares the answer of `check` to a row's certificate, and that of `min` to its problem without potentials, or
    its first line."""
    if row.lines["="]:
        certificate.write_bytes(bytes_of(row.lines["|"]))
        found = answer_of(["check", problem, certificate], row.place, complaints)
        if found != row.text("="):
            complaints.append(f"{row.place}: check: wanted {row.text('=')}, got {found}")
    if row.lines["~"]:
        answer = answer_of(["min", problem], row.place, complaints)
        lines = [line for line in answer.split("\n") if not line.startswith("v ")]
        if not {lines[0], "\n".join(lines)} & set(row.text("~").split("\n\n")):
            complaints.append(f"{row.place}: min: wanted {row.text('~')}, got {answer}")
        if lines[0][:1] in ("s", "x"):
            certificate.write_text(answer + "\n")
            if answer_of(["check", problem, certificate], row.place, complaints) != "yes":
                complaints.append(f"{row.place}: check rejects the answer of min")


def check_pieces(row, problem, complaints):
    """Checks that the answer is the same if each byte in turn begins the second piece of 4,096 bytes, after a
    comment."""
    text = bytes_of(row.lines[">"])
    status, found, stderr = run(["min", problem])
    stderr = re.sub(rb"(?<=problem )\d+", lambda match: b"%d" % (int(match[0]) + 1), stderr)
    for place in range(len(text)):
        problem.write_bytes(b"c".ljust(4095 - place) + b"\n" + text)
        compare(
            f"{row.place}: after a comment, cut at byte {place}",
            (status, found, stderr),
            run(["min", problem]),
            complaints,
        )


def check_problem_rows(complaints):
    with tempfile.TemporaryDirectory() as folder:
        problem, certificate = pathlib.Path(folder) / "row.min", pathlib.Path(folder) / "row.sol"
        for path in sorted((TOP / "examples" / "rows" / "problems").glob("*.txt")):
            for row in rows_of(path):
                problem.write_bytes(bytes_of(row.lines[">"]))
                check_problem_row(row, problem, certificate, complaints)
                if path.name == "pieces.txt":
                    check_pieces(row, problem, complaints)
