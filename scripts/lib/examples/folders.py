"""The folders of examples/ and examples/faults."""
import tempfile

from lib.command import TOP
from lib.examples.program import compare, read, rejected, run


def words_of(folder):
    """Returns the arguments of a folder: the chosen objective, the model and the data."""
    chosen = read(folder / "objective").decode().split()
    return [*(["--objective", *chosen] if chosen else []), folder / f"{folder.name}.mod", folder / f"{folder.name}.dat"]


def check_folder(folder, complaints):
    name, words = folder.name, words_of(folder)
    status, fault, text = int(read(folder / "status") or b"0"), read(folder / "fault.txt"), read(folder / "compile.txt")
    if text or fault:
        compare(name, (status, text, fault), run(["compile", *words]), complaints)
    lean = read(folder / "lean.txt")
    if lean:
        compare(f"{name}: lean", (status, lean, b""), run(["compile", *words, "--lean"]), complaints)
    # solve.txt has every correct answer, separated by empty lines.
    answers = [b"".join((part.rstrip(b"\n"), b"\n")) for part in read(folder / "solve.txt").split(b"\n\n") if part]
    choices: list[list[str]] = [[], ["--lean"]]
    for options in choices[: 0 if not answers else 2 if lean else 1]:
        given = run(["solve", *words, *options])
        wanted = next((answer for answer in answers if answer == given[1]), answers[0])
        compare(
            " ".join((f"{name}: solve", *options)),
            (int(read(folder / "solve_status") or b"0"), wanted, b""),
            given,
            complaints,
        )


def check_problem(folder, complaints):
    """Checks the certificates of a problem, and the answer of `min` without its potentials, which `check` verifies."""
    problem = folder / "problem.min"
    for line in (folder / "check.txt").read_text().splitlines():
        name, status, verdict = line.split(" ", 2)
        wanted = (int(status), verdict.encode() + b"\n", b"")
        compare(f"{folder.name}/{name}", wanted, run(["check", problem, folder / f"{name}.sol"]), complaints)
    status, found, stderr = run(["min", problem])
    fixed = b"".join(line for line in found.splitlines(keepends=True) if not line.startswith(b"v "))
    wanted = read(folder / "min.txt")
    if not wanted:
        # Several flows are optimal: only the value is compared, with that of the first certificate.
        first = (folder / "check.txt").read_text().split(" ", 1)[0]
        fixed, wanted = found.split(b"\n", 1)[0], read(folder / f"{first}.sol").split(b"\n", 1)[0]
    compare(f"{folder.name}: min", (int(read(folder / "status")), wanted, b""), (status, fixed, stderr), complaints)
    with tempfile.NamedTemporaryFile(suffix=".sol") as answer:
        answer.write(found)
        answer.flush()
        compare(f"{folder.name}: what min found", (0, b"yes\n", b""), run(["check", problem, answer.name]), complaints)


def check_line_faults(folder, complaints):
    for line in (folder / "faults.txt").read_text().splitlines():
        name, error = line.split(" ", 1)
        compare(f"{folder.name}/{name}", rejected(error, 3), run(["min", folder / f"{name}.min"]), complaints)
    problem = folder.parent / "foreign_problem" / "problem.min"
    exchanged = folder / "exchanged.sol"
    compare("exchanged", rejected("E78 Certificate certificate 2", 3), run(["check", problem, exchanged]), complaints)
    missing = folder / "missing"
    compare("no problem", rejected("E90 ReadFault problem", 4), run(["min", missing]), complaints)
    compare("no certificate", rejected("E90 ReadFault certificate", 4), run(["check", problem, missing]), complaints)


def check_pipe(complaints):
    """Passes what `compile` writes to `min`, and the answer to `check`."""
    for folder in sorted(folder for folder in (TOP / "examples").iterdir() if read(folder / "compile.txt")):
        status, text, _ = run(["compile", *words_of(folder)])
        with tempfile.NamedTemporaryFile(suffix=".min") as problem, tempfile.NamedTemporaryFile(
            suffix=".sol"
        ) as answer:
            problem.write(text)
            problem.flush()
            status, found, stderr = run(["min", problem.name])
            answer.write(found)
            answer.flush()
            if status not in (0, 2):
                complaints.append(f"{folder.name}: min: status {status}, {stderr!r}")
            compare(
                f"{folder.name}: min, checked",
                (0, b"yes\n", b""),
                run(["check", problem.name, answer.name]),
                complaints,
            )


def check_lean_alike(complaints):
    """Checks that the lean form is the normal form, byte for byte, if all lower bounds are 0 and no arc has equal
    bounds."""
    for name in ("cities", "transport", "max_flow"):
        folder = TOP / "examples" / name
        wanted = read(folder / "compile.txt") or run(["compile", *words_of(folder)])[1]
        compare(f"{name}: compile --lean", (0, wanted, b""), run(["compile", "--lean", *words_of(folder)]), complaints)
        compare(
            f"{name}: solve --lean",
            run(["solve", *words_of(folder)]),
            run(["solve", "--lean", *words_of(folder)]),
            complaints,
        )
