"""Builds the static library and the WebAssembly modules of crates/net_web.

The toolchain proves the crate and passes one LLVM module with all of its code to its own clang. A copy of that module, retargeted
(web/build/retarget.py), is compiled for WebAssembly by the same clang, and linked with web/module/heap.c and web/module/wide.c.
"""
import pathlib
import shlex
import shutil
import subprocess
import sys
import tempfile

from lib.ci import CHECKED
from web.build.retarget import Unknown, retargeted

TOP = pathlib.Path(__file__).resolve().parent.parent.parent
CRATE = "net_web"
EXPORTS = ("netflow_solve", "netflow_compile", "netflow_min", "netflow_check")
# The toolchains whose modules are known to have these forms.
TOOLCHAINS = ("rattle-kit-13b", "rattle-kit-13f")
STACK = 4 * 2**20
# The features of WebAssembly that the toolchain's own modules use; browsers have had them since 2021.
TARGET = ("-mcpu=lime1", "--no-default-config", "-ffunction-sections", "-fdata-sections")
# Division of 128 bits is expanded: there is no library to call.
PASSES = ("-mllvm", "-expand-div-rem-bits=64", "-mllvm", "-trap-unreachable", "-mllvm", "-disable-machine-licm", "-mllvm", "-sink-common-insts=false")
C_FLAGS = ("-O2", "-fwrapv", "-ffreestanding", "-nostdinc", "-fno-builtin", "-Wall", "-Wextra", "-Werror")
# A clang that copies the module that it is given. The toolchain passes no environment to it.
KEEPING = """#!/bin/sh
for word; do case $word in *.bc) [ -f "$word" ] && cp "$word" {module} ;; esac; done
exec {clang} "$@"
"""


class Failed(Exception):
    """A step that failed, and why."""


def run(words, **how):
    """Runs a command; raises Failed with what it printed if it fails."""
    ran = subprocess.run(list(map(str, words)), stdin=subprocess.DEVNULL, stdout=subprocess.PIPE, stderr=subprocess.STDOUT, **how)
    if ran.returncode:
        raise Failed(f"{words[0]} failed with status {ran.returncode}:\n{ran.stdout.decode(errors='replace')[-12000:]}")
    return ran.stdout


class Kit:
    """The installed toolchain."""

    def __init__(self, allow_other=False):
        if shutil.which("rt") is None:
            raise Failed("the Rattle toolchain is missing: 'rt' is not on the PATH")
        words = run(["rt", "version"]).decode().split()
        if words[0] not in TOOLCHAINS and not allow_other:
            raise Failed(f"the toolchain is {words[0]}, and the module's forms are known for {' and '.join(TOOLCHAINS)} only; "
                         "--any-toolchain tries it, and compare the page with the program then (scripts/check_web)")
        self.name = words[0]
        from lib import prover  # it loads rt as a module, and needs the toolchain
        self.prover = prover
        self.folder = pathlib.Path(prover.RT.rtlib.KIT)
        self.clang = self.folder / "toolchain" / "bin" / "clang"
        if not self.clang.is_file():
            raise Failed(f"the toolchain has no clang at {self.clang}")


def build_library(kit, out):
    """Writes the static library of the proved crate and its LLVM module into the folder."""
    crate = kit.prover.crates_of(TOP)[CRATE]
    unbuilt = kit.prover.unbuilt(crate)
    if unbuilt:
        raise Failed(f"the library {unbuilt[0]} is not built: run scripts/build first")
    kit.prover.RT.rtlib.Crate.cuts_libraries = False
    library, module = out / "libnetflow.a", out / "net_web.bc"
    # An old one would hide that no new one was handed over.
    module.unlink(missing_ok=True)
    (pathlib.Path(crate.folder) / "out").mkdir(exist_ok=True)
    with tempfile.TemporaryDirectory() as room:
        tools = keeping_toolchain(kit, pathlib.Path(room), module)
        build([kit.prover.RT.rtlib.RATTLE, "build"], proofs(crate), ["--toolchain", tools, "--backend", "llvm", "-o", library], crate.folder)
    complete_library(kit, library)
    if not module.exists():
        raise Failed("the toolchain passed no LLVM module to its clang: it builds libraries in another way than this script knows")
    return library, module


def proofs(crate):
    """Returns the words for each way in which `rattle build` can have the proof of the crate: from the check that the gate's `rt ci` has made
    (scripts/lib/ci.py), if it is here, or by a proof."""
    words, checked = crate.words(["--jobs", "2"]), pathlib.Path(crate.folder) / CHECKED
    ways = [[*words, "--incremental", "out/incremental"]]
    if checked.is_dir():
        # These two are for a proof, and rattle refuses them without one.
        for option in ("--logic-built", "--jobs"):
            at = words.index(option)
            del words[at:at + 2]
        ways.insert(0, [*words, "--crate-checked", checked])
    return ways


def build(head, ways, tail, folder):
    """Runs `rattle build` with the first words that it takes."""
    for number, words in enumerate(ways, 1):
        try:
            return run([*head, *words, *tail], cwd=folder)
        except Failed as problem:
            # It refuses a check of other sources, libraries or code.
            if number == len(ways):
                raise
            print(f"web: proving {CRATE}, because its check cannot be used: {str(problem)[-400:]}", file=sys.stderr, flush=True)


def complete_library(kit, library):
    """Adds the heap over malloc to the library, which then needs the C library alone."""
    with tempfile.TemporaryDirectory() as room:
        memory = pathlib.Path(room) / "memory.o"
        flags = ("--target=x86_64-unknown-linux-gnu", "--no-default-config", "-O2", "-fPIC", "-ffreestanding", "-Wall", "-Wextra", "-Werror")
        run([kit.clang, *flags, "-c", TOP / "web" / "native" / "memory.c", "-o", memory])
        run([kit.folder / "toolchain" / "bin" / "llvm-ar", "rD", library, memory])


def keeping_toolchain(kit, room, module):
    """Returns a folder like the toolchain's, whose clang copies its input to `module`."""
    (room / "bin").mkdir()
    (room / "lib").symlink_to(kit.folder / "toolchain" / "lib")
    for file in (kit.folder / "toolchain" / "bin").iterdir():
        if file.name != "clang":
            (room / "bin" / file.name).symlink_to(file)
    clang = room / "bin" / "clang"
    clang.write_text(KEEPING.format(module=shlex.quote(str(module)), clang=shlex.quote(str(kit.clang))), encoding="utf-8")
    clang.chmod(0o755)
    return room


def disassembled(kit, module):
    """Returns the text of an LLVM module."""
    words = [kit.clang, "--target=x86_64-unknown-linux-gnu", "-S", "-emit-llvm", "-Xclang", "-disable-llvm-passes", "-x", "ir", module, "-o", "-"]
    return run(words).decode("utf-8")


def build_wasm(kit, text, bits, out):
    """Writes the WebAssembly module for pointers of 32 or 64 bits, of the text of the LLVM module."""
    with tempfile.TemporaryDirectory() as room:
        room = pathlib.Path(room)
        try:
            (room / "module.ll").write_text(retargeted(text, bits), encoding="utf-8")
        except Unknown as form:
            raise Failed(f"the toolchain's LLVM module has a form that web/build/retarget.py does not know: {form}") from None
        target = [kit.clang, f"--target=wasm{bits}-unknown-unknown", *TARGET]
        run([*target, *PASSES, "-Wno-override-module", "-O3", "-c", "-x", "ir", room / "module.ll", "-o", room / "module.o"])
        objects = [room / "module.o"]
        for name in ("heap", "wide"):
            objects.append(room / f"{name}.o")
            run([*target, *C_FLAGS, "-c", TOP / "web" / "module" / f"{name}.c", "-o", objects[-1]])
        link(kit, objects, bits, room / "netflow.wasm")
        check_wasm(kit, room / "netflow.wasm")
        shutil.copyfile(room / "netflow.wasm", out)
    return out


def link(kit, objects, bits, out):
    # The toolchain's clang is its linker too, under that linker's name.
    words = ["wasm-ld", "--no-entry", "--stack-first", "-z", f"stack-size={STACK}", "--gc-sections", "--threads=1", "--fatal-warnings", "--strip-all",
             *(f"--export={it}" for it in EXPORTS), *(["-mwasm64"] if bits == 64 else ["--max-memory=4294967296"]), "-o", out, *objects]
    run(words, executable=kit.clang)


def check_wasm(kit, path):
    """Raises Failed if the module imports anything: the host would have to define it. In the format, section 2 has the imports."""
    raw, at = path.read_bytes(), 8
    if raw[:4] != b"\0asm":
        raise Failed("the linker made no WebAssembly module")
    while at < len(raw):
        kind, at = raw[at], at + 1
        size = shift = 0
        while True:
            size, shift, more, at = size | (raw[at] & 127) << shift, shift + 7, raw[at] & 128, at + 1
            if not more:
                break
        if kind == 2:
            raise Failed("the module imports functions, and a page has none for it")
        at += size
