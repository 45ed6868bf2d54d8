"""Calls with the answers of the native program: those that scripts/check_examples makes, the deepest and longest inputs of
scripts/check_stack, and examples with random changes."""
import dataclasses
import importlib.machinery
import importlib.util
import pathlib
import random
import subprocess
import tempfile

TOP = pathlib.Path(__file__).resolve().parent.parent.parent
PROGRAM = TOP / "crates" / "netflow" / "out" / "netflow"
# The most bytes of an input that is sent to a browser.
LARGEST = 4 * 2**20
INPUTS = {"solve": 2, "compile": 2, "min": 1, "check": 2}


@dataclasses.dataclass
class Case:
    """A call: its command, its inputs as the module takes them, and the status and text of the program."""

    title: str
    command: str
    inputs: list
    status: int
    text: bytes


def answer_of(returncode, stdout, stderr):
    """Returns the status and the text of a run of the program, as the module gives them."""
    return returncode, stdout if returncode in (0, 2) else stderr.removesuffix(b"\n") if returncode == 3 else b""


def load(name):
    """Loads a script of scripts/ as a module."""
    loader = importlib.machinery.SourceFileLoader(name, str(TOP / "scripts" / name))
    made = importlib.util.module_from_spec(importlib.util.spec_from_loader(name, loader))
    loader.exec_module(made)
    return made


def call_of(words):
    """Returns the command and the inputs of a command line; None if it is no plain call of a command with files that can be read."""
    words = [it if isinstance(it, bytes) else str(it) for it in words]
    if not words or words[0] not in INPUTS or any(isinstance(it, bytes) for it in words):
        return None
    command, rest, paths, objective, is_lean = words[0], list(words[1:]), [], "", False
    while rest:
        word = rest.pop(0)
        if word == "--objective" and rest:
            objective = rest.pop(0)
            if not objective:
                # For the module no name means the only objective; for the command line it is a name that no objective has.
                return None
        elif word == "--lean":
            is_lean = True
        elif word.startswith("-"):
            return None
        else:
            paths.append(pathlib.Path(word))
    files = [b"" if str(it) == "/dev/null" else it.read_bytes() for it in paths if str(it) == "/dev/null" or it.is_file()]
    if len(files) != INPUTS[command] or len(paths) != len(files):
        return None
    return command, [objective.encode(), is_lean, *files] if command in ("solve", "compile") else files


class Recorder:
    """Runs the program for the checks of scripts/check_examples, and keeps each call with its answer once."""

    def __init__(self):
        from lib.examples import folders, inputs, pages, program, rows, streams
        self.modules, self.run_program, self.cases = (folders, inputs, pages, rows, streams), program.run, {}

    def run(self, words, seconds=None):
        found = self.run_program(words, seconds)
        call = call_of(words)
        if call:
            self.keep(f"example {len(self.cases)}", *call, *answer_of(*found))
        return found

    def keep(self, title, command, inputs, status, text):
        self.cases.setdefault((command, *inputs), Case(title, command, inputs, status, text))

    def record(self):
        """Returns the calls of all examples, rows and documents; raises AssertionError if the program itself fails a check."""
        examples = load("check_examples")
        complaints, folders = [], [it for top in ("examples", "examples/faults") for it in sorted((TOP / top).iterdir()) if it.is_dir()]
        for module in self.modules:
            module.run = self.run
        try:
            examples.check_named([it for it in folders if any((it / kind).exists() for kind in ("status", "faults.txt"))], complaints)
            for check in examples.CHECKS:
                # These are about files and streams, not about calls.
                if check.__name__ not in ("check_ends", "check_endless", "check_long_lines"):
                    check(complaints)
        finally:
            for module in self.modules:
                module.run = self.run_program
        assert not complaints, f"the program fails scripts/check_examples: {complaints[0]}"
        # What is compiled is solved too.
        for case in list(self.cases.values()):
            if case.command == "compile" and max(map(len, case.inputs[2:])) < LARGEST:
                self.keep(f"{case.title}, solved", "solve", case.inputs, *by_program("solve", case.inputs))
        return list(self.cases.values())


def by_program(command, inputs, *options):
    """Returns the status and text of the program for the inputs of a call, with these options more."""
    with tempfile.TemporaryDirectory() as room:
        words, files = [str(PROGRAM), command], []
        for number, it in enumerate(inputs):
            if command in ("solve", "compile") and number < 2:
                words += ([f"--objective={it.decode()}"] if it else []) if number == 0 else ["--lean"] * it
            else:
                path = pathlib.Path(room) / f"input{number}"
                path.write_bytes(it)
                files.append(str(path))
        ran = subprocess.run([*words, *options, *files], capture_output=True, stdin=subprocess.DEVNULL)
        return answer_of(ran.returncode, ran.stdout, ran.stderr)


def stack_cases():
    """Yields the calls of scripts/check_stack."""
    stack = load("check_stack")
    small, short = stack.HEAD.encode(), stack.DATA.encode()
    for name, text in stack.models().items():
        for command in ("compile", "solve"):
            yield name, command, [b"", False, text.encode(), short]
    for name, text in stack.data().items():
        yield name, "compile", [b"", False, small, text.encode()]
    for name, text in stack.problems().items():
        yield name, "min", [text.encode()]


def kept_models():
    """Returns the models of the examples with each of their data files."""
    found = []
    for folder in sorted((TOP / "examples").iterdir()):
        for model in sorted(folder.glob("*.mod")):
            for data in sorted(folder.glob("*.dat")) or [None]:
                found.append((model.read_bytes(), data.read_bytes() if data else b""))
    return found


PIECES = [b"9", b";", b" ", b"'", b"x", "\u00fc".encode(), b"\n", b"0", b"-", b"\xff", b"{", b")"]


def changed(rng, models):
    """Returns a model and its data with up to three random changes: mostly of digits, so that most stay models."""
    texts = [bytearray(it) for it in rng.choice(models)]
    for _ in range(rng.randint(0, 3)):
        text = texts[rng.randrange(2)]
        if not text:
            continue
        at, kind = rng.randrange(len(text)), rng.random()
        digits = [place for place, it in enumerate(text) if 48 <= it < 58]
        if kind < 0.6 and digits:
            text[rng.choice(digits)] = rng.choice(b"0123456789")
        elif kind < 0.75:
            text[at:at + 1] = rng.choice(PIECES)
        elif kind < 0.85:
            del text[at:at + rng.randint(1, 4)]
        elif kind < 0.95:
            text[at:at] = rng.choice(PIECES)
        else:
            del text[at:]
    return [bytes(it) for it in texts]


def changed_calls(seed, count):
    """Yields calls of changed models."""
    rng, models = random.Random(seed), kept_models()
    for number in range(count):
        command = rng.choice(("solve", "solve", "compile"))
        yield f"changed {seed}/{number}", command, [b"", rng.random() < 0.2, *changed(rng, models)]


def random_problem(rng):
    """Returns a random small problem, sometimes with broken bytes."""
    nodes, arcs, largest = rng.randint(2, 9), rng.randint(0, 20), rng.choice([10, 1000, 10**6, 10**11])
    supplies = [rng.randint(-largest, largest) if rng.random() < 0.5 else 0 for _ in range(nodes)]
    supplies[-1] -= sum(supplies) if rng.random() < 0.9 else 0
    lines = [f"p min {nodes} {arcs}", *(f"n {place} {it}" for place, it in enumerate(supplies, 1) if it)]
    cost = 10 ** rng.randint(0, 11)
    for _ in range(arcs):
        low = rng.choice([0, 0, 0, rng.randint(0, largest)])
        src, dst = rng.sample(range(1, nodes + 1), 2)
        lines.append(f"a {src} {dst} {low} {low + rng.randint(0, 2 * largest)} {rng.randint(-cost, cost)}")
    text = bytearray(("\n".join(lines) + "\n").encode())
    for _ in range(rng.randint(1, 3) if rng.random() < 0.15 else 0):
        text[rng.randrange(len(text))] = rng.choice(b"0123456789 \nanpc-\x00\xff")
    return bytes(text)
