"""Runs scripts/check_examples on netflow.mjs, and compiles and runs the example in C."""
import base64
import json
import os
import shutil
import subprocess
import tempfile

from web.build import outputs
from web.tests import cases

PROGRAM = outputs.OUT / outputs.NODE


class Command:
    """netflow.mjs in one process of node; words that are no plain call of a command get a process of their own."""

    def __init__(self):
        self.count = 0
        self.process = subprocess.Popen(["node", str(outputs.TOP / "web" / "tests" / "command.mjs"), str(outputs.OUT)], stdin=subprocess.PIPE, stdout=subprocess.PIPE, encoding="utf-8")

    def run(self, words, seconds=None):
        self.count += 1
        if not words or any(isinstance(it, bytes) for it in words) or str(words[0]) not in cases.INPUTS:
            ran = subprocess.run([str(PROGRAM), *words], capture_output=True, stdin=subprocess.DEVNULL)
            return ran.returncode, ran.stdout, ran.stderr
        self.process.stdin.write(json.dumps([str(it) for it in words]) + "\n")
        self.process.stdin.flush()
        status, output, error = json.loads(self.process.stdout.readline())
        return status, base64.b64decode(output), error.encode()

    def close(self):
        self.process.stdin.close()
        self.process.wait(timeout=30)


def check_examples():
    """Returns the number of calls, and the complaints of scripts/check_examples about netflow.mjs."""
    recorder, command, complaints = cases.Recorder(), Command(), []
    examples = cases.load("check_examples")
    folders = [it for top in ("examples", "examples/faults") for it in sorted((cases.TOP / top).iterdir()) if it.is_dir()]
    streams = recorder.modules[-1]
    program, streams.PROGRAM = streams.PROGRAM, PROGRAM
    for module in recorder.modules:
        module.run = command.run
    try:
        examples.check_named([it for it in folders if any((it / kind).exists() for kind in ("status", "faults.txt"))], complaints)
        for check in examples.CHECKS:
            # It limits the address space to what node alone exceeds.
            if check.__name__ != "check_long_lines":
                check(complaints)
    finally:
        streams.PROGRAM = program
        for module in recorder.modules:
            module.run = recorder.run_program
        command.close()
    return command.count, complaints


def check_example_in_c():
    """Compiles example.c with libnetflow.a, and compares its answers to those of the program; returns how many, and complaints. Without
    a C compiler it returns None."""
    compiler = next((it for it in ("cc", "gcc", "clang") if shutil.which(it)), None)
    if compiler is None:
        return None, []
    complaints = []
    with tempfile.TemporaryDirectory() as room:
        example = os.path.join(room, "example")
        words = [compiler, "-std=c11", "-Wall", "-Wextra", "-Werror", f"-I{outputs.OUT}", str(outputs.OUT / outputs.EXAMPLE), str(outputs.OUT / outputs.LIBRARY), "-o", example]
        built = subprocess.run(words, capture_output=True, text=True)
        if built.returncode:
            return 0, [f"the example in C does not compile: {built.stderr[-500:]}"]
        models = cases.kept_models() + [(b"node ;", b""), (b"\xff", b"")]
        for model, data in models:
            paths = []
            for name, text in (("model", model), ("data", data)):
                paths.append(os.path.join(room, name))
                with open(paths[-1], "wb") as file:
                    file.write(text)
            ran = subprocess.run([example, *paths], capture_output=True, stdin=subprocess.DEVNULL)
            if cases.answer_of(ran.returncode, ran.stdout, ran.stderr) != cases.by_program("solve", [b"", False, model, data]):
                complaints.append(f"the example in C answers {model[:60]!r} in another way than the program")
    return len(models), complaints
