"""`rt ci` for the gate, with one option more: what it checks of a static library is kept.

`rt ci` checks a static library and writes nothing of it, so scripts/web would prove net_web a second time. Here the
same check gets the option `-o`, which `rt ci` itself gives to the check of a program: `rattle check` then writes the
checked crate, and its verdict is the same. `rattle build --crate-checked` compiles that crate, and refuses it if a
source, a library or the code is another one.

As a program: `-m lib.ci [--anew]`, in the folder of the copy."""
import sys

from lib.command import TOP

# The checked crate, in the folder of a static library.
CHECKED = "out/checked"


def command(is_anew):
    """Returns the words that run this program in any folder."""
    return ["env", f"PYTHONPATH={TOP / 'scripts'}", sys.executable, "-m", "lib.ci", *["--anew"] * is_anew]


def keeping(crate, words):
    """Returns the words of a command of `rattle` with which the check of a static library is kept."""
    is_whole = words[0] == "check" and not {"--test", "-o"} & set(words)
    return [*words, "-o", f"{crate.folder}/{CHECKED}"] if crate.is_static and is_whole else words


def main(words):
    from lib.prover import RT  # it loads the toolchain

    prove = getattr(RT.Crate, "prove", None)
    if prove:  # Without it, a toolchain checks in another way, and scripts/web proves net_web itself.
        RT.Crate.prove = lambda crate, *commands: prove(crate, *(keeping(crate, it) for it in commands))
    return RT.main(["ci", *words])


if __name__ == "__main__":
    sys.exit(main(sys.argv[1:]))
