"""Random calls in node beside the native code: problems, certificates with random changes, and changed models. The native code is that
of libnetflow.a, in this process; each `PROGRAM_EACH`th call goes to the program as well."""
import ctypes
import os
import random
import subprocess
import tempfile

from web.build import outputs
from web.tests import cases, targets

PROGRAM_EACH = 20
ROOM = 1 << 22


class Library:
    """libnetflow.a as a shared library of this process."""

    def __init__(self, room):
        path = os.path.join(room, "libnetflow.so")
        whole = ["-Wl,--whole-archive", str(outputs.OUT / outputs.LIBRARY), "-Wl,--no-whole-archive"]
        subprocess.run(["cc", "-shared", "-o", path, *whole], check=True)
        self.library, self.out, self.length = ctypes.CDLL(path), ctypes.create_string_buffer(ROOM), ctypes.c_size_t()

    def call(self, command, inputs):
        function, words = getattr(self.library, f"netflow_{command}"), []
        function.restype = ctypes.c_uint32
        for it in inputs:
            words += [ctypes.c_bool(it)] if isinstance(it, bool) else [ctypes.c_char_p(it), ctypes.c_size_t(len(it))]
        status = function(*words, self.out, ctypes.c_size_t(ROOM), ctypes.byref(self.length))
        assert self.length.value <= ROOM, "a text is larger than this test allows"
        return status, ctypes.string_at(self.out, self.length.value)


def broken(rng, text):
    """Returns a text with some bytes changed."""
    found = bytearray(text)
    for _ in range(rng.choice((0, 1, 1, 2))):
        if found:
            found[rng.randrange(len(found))] = rng.choice(b"0123456789 -\nsfvxm")
    return bytes(found)


def random_call(rng, models, library):
    """Returns the command and the inputs of a random call."""
    kind = rng.random()
    if kind < 0.4:
        command = rng.choice(("solve", "compile"))
        return command, [b"" if rng.random() < 0.95 else b"Cost", rng.random() < 0.2, *cases.changed(rng, models)]
    problem = cases.random_problem(rng)
    if kind < 0.75:
        return "min", [problem]
    return "check", [problem, broken(rng, library.call("min", [problem])[1])]


def compare(seed, count):
    """Returns the statuses that were counted, how many calls went to the program, and complaints."""
    rng, models, node, counts, complaints, programs = random.Random(seed), cases.kept_models(), targets.Node(), {}, [], 0
    with tempfile.TemporaryDirectory() as room:
        library = Library(room)
        try:
            for number in range(count):
                command, inputs = random_call(rng, models, library)
                wanted, found = library.call(command, inputs), node.call(command, inputs)
                counts[command, wanted[0]] = counts.get((command, wanted[0]), 0) + 1
                if number % PROGRAM_EACH == 0:
                    programs += 1
                    if cases.by_program(command, inputs) != wanted:
                        complaints.append(f"seed {seed}, call {number}: {command}: the library and the program differ")
                if found != wanted:
                    complaints.append(f"seed {seed}, call {number}: {command} gives {found[0]} {found[1][:80]!r}, and the library {wanted[0]} {wanted[1][:80]!r}")
        finally:
            node.close()
    return counts, programs, complaints
