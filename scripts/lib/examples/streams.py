"""Files and streams that fail or never end, outputs that take no more, limits of files, prefixes, and the command
line."""
import os
import pathlib
import resource
import signal
import socket
import subprocess
import sys
import tempfile

from lib.command import TOP
from lib.examples.program import PROGRAM, answer, compare, rejected, run
from lib.examples.rows import rows_of
from lib.faultlines import TEXTS, complaint
from lib.version import version


def check_limits(complaints):
    """Models above the limits on nodes and text, files that cannot be opened, and the command line."""
    nodes = "".join(f"node N{i};\n" for i in range(10001))
    arcs = "minimize C;\nnode N;\n" + "".join(f"arc A{i} >= 0, <= 1, from N, to N, obj C 1;\n" for i in range(100001))
    # The line of an arc has more than ten bytes, so this many arcs exceed the limit of the text first.
    cases = [
        ("too many nodes", nodes, "E59 TooManyNodes model 10001:6 N10000", 3),
        ("text too long", arcs, "E07 TextTooLong model 1:1", 3),
    ]
    with tempfile.TemporaryDirectory() as folder:
        for name, text, line, status in cases:
            path = pathlib.Path(folder) / "case.mod"
            path.write_text(text)
            compare(name, rejected(line, status), run(["compile", path, "/dev/null"]), complaints)
        missing = pathlib.Path(folder) / "missing"
        compare("no model", rejected("E90 ReadFault model", 4), run(["compile", missing, "/dev/null"]), complaints)
        compare("no data", rejected("E90 ReadFault data", 4), run(["compile", "/dev/null", missing]), complaints)
    status, _, stderr = run([b"check", b"\xff", b"x"])
    compare(
        "a word that is not UTF-8",
        (64, b"netflow: a word of the command line is not UTF-8\n"),
        (status, stderr),
        complaints,
    )
    if run([])[0] != 64:
        complaints.append("no words: wanted status 64")
    if run(["--help"])[0] != 0:
        complaints.append("--help: wanted status 0")
    compare("--version", (0, f"netflow {version()}\n".encode(), b""), run(["--version"]), complaints)
    two_lines = run(["compile", TOP / "examples" / "one_arc" / "one_arc.mod", "/dev/null", "--objective", "a\nb\r"])
    compare(
        "an objective's name of two lines", rejected("E61 NoSuchObjective model 4:47 a b ", 3), two_lines, complaints
    )


def written_to(output, words, room=None):
    """Runs the program with standard output into a file that takes at most `room` bytes; returns status and standard
    error."""

    def limit():
        signal.signal(signal.SIGXFSZ, signal.SIG_IGN)
        resource.setrlimit(resource.RLIMIT_FSIZE, (room, room))

    with open(output, "wb") as at:
        done = subprocess.run(
            [str(PROGRAM), *map(str, words)],
            stdout=at,
            stderr=subprocess.PIPE,
            stdin=subprocess.DEVNULL,
            preexec_fn=limit if room is not None else None,
        )
    return done.returncode, done.stderr


def check_ends(complaints):
    """Endless input, input that cannot be read, and outputs that take no bytes or only a few."""
    one_arc, foreign = TOP / "examples" / "one_arc" / "one_arc.mod", TOP / "examples" / "foreign_problem"
    problem, right = foreign / "problem.min", foreign / "right.sol"
    cases: list[tuple[list, str, int]] = [
        (["compile", "/dev/zero", "/dev/null"], "E07 TextTooLong model 1:1", 3),
        (["compile", TOP, "/dev/null"], "E90 ReadFault model", 4),
        (["compile", one_arc, TOP], "E90 ReadFault data", 4),
        (["solve", one_arc, TOP], "E90 ReadFault data", 4),
        (["min", TOP], "E90 ReadFault problem", 4),
        (["check", TOP, right], "E90 ReadFault problem", 4),
        (["check", problem, TOP], "E90 ReadFault certificate", 4),
        # Both files are read before the first is checked.
        (["compile", "/dev/zero", TOP], "E90 ReadFault data", 4),
    ]
    for words, line, status in cases:
        compare(" ".join(map(str, words)), rejected(line, status), run(words), complaints)
    full = pathlib.Path("/dev/full").exists()
    if not full:
        print("check_examples: no /dev/full here: a full output was not tried", file=sys.stderr)
    with tempfile.TemporaryDirectory() as folder:
        path = pathlib.Path(folder) / "output"
        for words in (
            ["compile", one_arc, "/dev/null"],
            ["solve", one_arc, "/dev/null"],
            ["min", problem],
            ["check", problem, right],
        ):
            whole, failed = run(words)[1], (4, b"E91 WriteFault\n")
            if full and written_to("/dev/full", words) != failed:
                complaints.append(f"{words[0]}: a full output is not reported")
            given = written_to(path, words, 3)
            if given != failed or path.read_bytes() != whole[:3]:
                complaints.append(f"{words[0]}: of an output of three bytes: {given}, {path.read_bytes()!r}")


def check_endless(complaints):
    """Input that never ends, from a pipe."""
    one_arc, foreign = (
        TOP / "examples" / "one_arc" / "one_arc.mod",
        TOP / "examples" / "foreign_problem" / "problem.min",
    )
    cases: list[tuple[list, str]] = [
        (["compile", "/dev/stdin", "/dev/null"], "E07 TextTooLong model 1:1"),
        (["solve", one_arc, "/dev/stdin"], "E07 TextTooLong data 1:1"),
        (["min", "/dev/stdin"], "E77 TooLarge problem 1"),
        (["check", foreign, "/dev/stdin"], "E77 TooLarge certificate 1"),
    ]
    for words, line in cases:
        with subprocess.Popen(["yes", "# c"], stdout=subprocess.PIPE) as endless:
            done = subprocess.run([str(PROGRAM), *map(str, words)], capture_output=True, stdin=endless.stdout)
            endless.kill()
        compare(f"{words[0]}, without an end", rejected(line, 3), answer(done), complaints)


def check_standard_input(complaints):
    """Standard input by its path: a pipe, a file that was read in part, a socket, which no path opens, and one that is
    closed, which the runtime reads as an empty text."""
    folder = TOP / "examples" / "one_arc"
    model, wanted = (folder / "one_arc.mod").read_bytes(), (0, (folder / "compile.txt").read_bytes(), b"")
    words = [str(PROGRAM), "compile", "/dev/stdin", "/dev/null"]
    done = subprocess.run(words, input=model, capture_output=True)
    compare("a pipe", wanted, answer(done), complaints)
    with tempfile.TemporaryFile() as file:
        file.write(b"set S;\n" + model)
        file.flush()
        os.lseek(file.fileno(), 7, os.SEEK_SET)
        done = subprocess.run(words, stdin=file, capture_output=True)
    compare("a file that was read in part", wanted, answer(done), complaints)
    ours, theirs = socket.socketpair()
    with ours, theirs:
        ours.sendall(model)
        ours.shutdown(socket.SHUT_WR)
        done = subprocess.run(words, stdin=theirs.fileno(), capture_output=True)
    compare("a socket", wanted, answer(done), complaints)
    done = subprocess.run(["sh", "-c", 'exec "$@" <&-', "sh", *words], capture_output=True)
    compare(
        "a closed standard input, which is empty",
        rejected("E56 NoObjective model 1:1", 3),
        answer(done),
        complaints,
    )


def check_long_lines(complaints):
    """Problems of 64 MiB in one line, or nearly: they are answered in less memory than their length."""
    size = 2**26
    certificate = b"s 0\nv 1 0\n"
    cases = [
        ("blanks", b" " * size, "E71 NoProblemLine problem 2"),
        ("a comment after blanks", b"  c".ljust(size, b"x"), "E71 NoProblemLine problem 2"),
        ("zeros", b"p min " + b"1 0\n".rjust(size - 6, b"0"), certificate),
        ("digits", b"p min 1 0\nn 1 ".ljust(size, b"7"), "E77 TooLarge problem 2"),
        ("fields", b"7 " * (size // 2), "E70 BadLine problem 1"),
        ("blanks before a CR", b"p min 1 0".ljust(size - 2) + b"\r\n", certificate),
        ("blanks in a line", b"p min 1".ljust(size - 2) + b"0\n", certificate),
    ]

    def limit():
        resource.setrlimit(resource.RLIMIT_AS, (size, size))

    with tempfile.TemporaryDirectory() as folder:
        path = pathlib.Path(folder) / "problem.min"
        for name, text, wanted in cases:
            path.write_bytes(text)
            done = subprocess.run(
                [str(PROGRAM), "min", str(path)], capture_output=True, stdin=subprocess.DEVNULL, preexec_fn=limit
            )
            wanted = (0, wanted, b"") if isinstance(wanted, bytes) else rejected(wanted, 3)
            compare(f"a long line of a problem: {name}", wanted, answer(done), complaints)


def whole_answers(*first_lines):
    """Yields the model and the data of the first rows of models.txt whose models begin with these lines, each as one
    text."""
    rows = list(rows_of(TOP / "examples" / "rows" / "models.txt"))
    for line in first_lines:
        row = next(candidate for candidate in rows if candidate.lines["+"] and candidate.text(">").startswith(line))
        yield row.text(">").encode(), row.text("|").encode()


def check_prefixes(complaints):
    """Every prefix of some inputs is answered, or rejected at a position in it or at its end."""
    problem = TOP / "examples" / "eight_cities"
    cases: list[tuple] = [("check", (problem / "problem.min").read_bytes(), (problem / "glpk.sol").read_bytes())]
    one_arc = (TOP / "examples" / "negative_lower_bound" / "negative_lower_bound.mod").read_bytes()
    cases += [("compile", *case) for case in whole_answers("set CITIES;", "set INTER;")] + [("solve", one_arc, b"")]
    with tempfile.TemporaryDirectory() as folder:
        paths = [pathlib.Path(folder) / name for name in ("first", "second")]
        for call, *texts in cases:
            for which, whole in enumerate(texts):
                for end in range(len(whole) + 1):
                    given = [whole[:end] if at == which else text for at, text in enumerate(texts)]
                    for path, text in zip(paths, given):
                        path.write_bytes(text)
                    status, text, stderr = run([call, *paths])
                    wrong = complaint(status, text, stderr, dict(zip(TEXTS[call], given)))
                    if wrong:
                        complaints.append(f"{call}: the first {end} bytes of {whole[:20]!r}..: {wrong}")
