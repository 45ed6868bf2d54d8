"""Runs the tests of a program from its sources: `-m lib.program_tests CRATE [FLAG ..]` does what `rt try --test` does
for a copy of the crate that has the files of its folder `tests` as modules. The crate itself has no tests, because each
of its checks would prove them and the whole crate a second time.
"""
import os
import pathlib
import shutil
import sys
import tempfile

from lib.prover import RT, TOP


def copy_with_tests(folder, name):
    """Copies the sources of all crates into a folder; returns that of this crate, with its tests as modules."""
    shutil.copy2(TOP / "crates.txt", folder)
    shutil.copytree(TOP / "crates", folder / "crates", ignore=shutil.ignore_patterns("out", "proofs", "must-fail"))
    crate = folder / "crates" / name
    # The toolchain rejects files of the suffix .rt outside src.
    files = sorted((crate / "tests").glob("*.rattle"))
    for file in files:
        shutil.copy2(file, (crate / "src" / file.stem).with_suffix(".rt"))
    root = crate / "src" / "main.rt"
    modules = "".join(f"#[cfg(test)]\nmod {file.stem};\n" for file in files)
    root.write_text(root.read_text(encoding="utf-8").replace("\nmod ", f"\n{modules}mod ", 1), encoding="utf-8")
    return crate


def main(name, *words):
    with tempfile.TemporaryDirectory(prefix="netflow-") as folder:
        os.chdir(copy_with_tests(pathlib.Path(folder), name))
        # preexec_fn of the toolchain's calls is not safe once threads run, so its guard starts here.
        RT.rtlib.guarded()
        # `rt try` checks all sources a second time next to the run, only for hints. Here that check ends at once.
        RT.rtlib.RATTLE = "true"
        return RT.rtlib.one("try", ["--test", *words])


if __name__ == "__main__":
    sys.exit(main(*sys.argv[1:]))
