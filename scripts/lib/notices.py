"""Collects the licence notices of the libraries that are linked into the program, from the toolchain's own files."""
import pathlib
import re
import shutil

from lib.command import TOP

USE = re.compile(r"(?m)^\s*(?:pub )?use (\w+)::")
TITLE = "Notices of the libraries that are linked into the program netflow\n"


def libraries_folder():
    """Returns the toolchain's folder of libraries; None without a toolchain."""
    found = shutil.which("rt")
    if not found:
        return None
    for folder in pathlib.Path(found).resolve().parents:
        if (folder / "rattle" / "std").is_dir():
            return folder / "rattle"
    return None


def crates_of_program():
    """Returns the crates that the program is built of, by crates.txt: its own, and those of the toolchain."""
    uses = {}
    for line in (TOP / "crates.txt").read_text(encoding="utf-8").splitlines():
        name, colon, others = line.split("#")[0].partition(":")
        if colon:
            uses[name.strip()] = others.split()
    found, waiting = set(), ["netflow"]
    while waiting:
        name = waiting.pop()
        if name not in found:
            found.add(name)
            waiting += uses.get(name, [])
    return {name for name in found if name not in uses} | {"std"}


def linked(folder):
    """Returns the toolchain's libraries that the program uses, directly or through others."""
    found, line = set(), sorted(crates_of_program())
    while line:
        name = line.pop()
        if name in found or not (folder / name).is_dir():
            continue
        found.add(name)
        for path in (folder / name / "src").rglob("*.rt"):
            line += [
                name
                for name in USE.findall(path.read_text(encoding="utf-8", errors="replace"))
                if name not in found and (folder / name).is_dir()
            ]
    return sorted(found)


def license_texts():
    """Returns the texts of licences of each linked library; nothing without a toolchain."""
    folder = libraries_folder()
    return {
        name: [path.read_text(encoding="utf-8", errors="replace") for path in sorted((folder / name).glob("LICENSE*"))]
        for name in (linked(folder) if folder is not None else [])
    }


def notices():
    """Returns the notices as one text; a text that is used by several libraries appears once."""
    folder = libraries_folder()
    if folder is None:
        return TITLE + "\nThe toolchain was not found when this archive was made, so its notices are missing.\n"
    texts: dict[str, list[str]] = {}
    for name in linked(folder):
        for path in sorted((folder / name).glob("LICENSE*")):
            texts.setdefault(path.read_text(encoding="utf-8", errors="replace").strip(), []).append(
                f"{name} ({path.name})"
            )
    names = sorted({user.split(" ")[0] for users in texts.values() for user in users})
    without = [name for name in linked(folder) if name not in names]
    parts = [TITLE, f"\nLibraries: {', '.join(names)}.\n"]
    parts += [f"Without a notice of their own in the toolchain: {', '.join(without)}.\n"] if without else []
    for text, users in sorted(texts.items(), key=lambda item: item[1]):
        parts.append(f"\n{'=' * 100}\n{', '.join(users)}\n{'=' * 100}\n\n{text}\n")
    return "".join(parts)
