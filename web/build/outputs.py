"""The files that scripts/web makes, and what they were made of.

They are in web/out: the page, the modules, the command line for node, and the library for C. Two files hold checksums of the sources,
with the name of the toolchain, so that tests and releases notice outputs that are older than the sources.
"""
import functools
import hashlib
import pathlib
import shutil
import subprocess
import sys

from web.build import page

TOP = page.TOP
OUT = TOP / "web" / "out"
PAGE, WASM32, WASM64, NODE, LIBRARY, HEADER, EXAMPLE = "netflow.html", "netflow.wasm", "netflow64.wasm", "netflow.mjs", "libnetflow.a", "netflow.h", "example.c"
FILES = (PAGE, WASM32, WASM64, NODE, LIBRARY, HEADER, EXAMPLE)


def module_sources():
    """Returns the sources of the modules and the library: those of the proved crates below net_web, and how they are compiled."""
    crates = sorted(it for it in (TOP / "crates").glob("net_*") if it.name not in ("net_bench", "net_tests"))
    found = [file for crate in crates for part in ("src", "specs") for file in sorted((crate / part).rglob("*")) if file.is_file()]
    return found + sorted((TOP / "web" / "module").iterdir()) + [TOP / "web" / "build" / it for it in ("module.py", "retarget.py")]


def page_sources():
    """Returns the sources of the page and the files around it, without the modules."""
    found = [file for folder in ("native", "node", "page") for file in sorted((TOP / "web" / folder).iterdir())]
    found += [TOP / "web" / "build" / it for it in ("markdown.py", "outputs.py", "page.py")]
    found += [page.ERRORS, page.GUIDE, *(it for it, _ in page.DOCUMENTS.values()), TOP / "CHANGELOG.md", TOP / "python" / "netflow" / "report" / "style.py"]
    return found + sorted(it for it in (TOP / "examples").glob("*/*") if it.suffix in (".mod", ".dat") or it.name in ("README.md", "objective"))


def sum_of(files):
    """Returns a checksum of files with their names."""
    total = hashlib.sha256()
    for file in files:
        total.update(f"{file.relative_to(TOP)}\n{hashlib.sha256(file.read_bytes()).hexdigest()}\n".encode())
    return total.hexdigest()


@functools.lru_cache(maxsize=None)
def toolchain():
    """Returns the installed toolchain's name, or an empty text."""
    return subprocess.run(["rt", "version"], capture_output=True, text=True).stdout.split(" ")[0] if shutil.which("rt") else ""


def noted(name):
    """Returns what the file of this name says if the outputs are those of the sources: their checksum, and the toolchain."""
    return f"{sum_of(SOURCES[name][0]())} {toolchain()}".rstrip()


def is_current(name):
    """Returns whether the outputs are of the sources as they are now, and of the toolchain, if one is installed."""
    _, files, _ = SOURCES[name]
    return all((OUT / it).exists() for it in (name, *files)) and (OUT / name).read_text(encoding="ascii").startswith(noted(name))


def complaint():
    """Returns why the outputs cannot be used, or None."""
    words = update()
    return None if words is None else f"the files in web/out are missing or older than their sources: run {' '.join(['scripts/web', *words])}"


def update():
    """Returns the words for scripts/web that make the outputs of the sources, or None if they are up to date."""
    return next((words for name, (_, _, words) in SOURCES.items() if not is_current(name)), None)


# The files that say of which sources the outputs are; the outputs, and the words for scripts/web that make them.
SOURCES = {
    "MODULES": (module_sources, (WASM32, WASM64, LIBRARY), ()),
    "PAGES": (page_sources, (PAGE, NODE, HEADER, EXAMPLE), ("--page",)),
}


def note_sources(name):
    write(name, f"{noted(name)}\n".encode("ascii"))


def node_program(version):
    """Returns netflow.mjs as one file: with the module's calls in it, and the version."""
    text = (TOP / "web" / "node" / NODE).read_text(encoding="utf-8")
    calls = (page.PAGE / "netflow_module.mjs").read_text(encoding="utf-8").replace("export ", "")
    line = "import { Instance, OUT_OF_MEMORY } from '../page/netflow_module.mjs';\n"
    if line not in text:
        raise page.Wrong("web/node/netflow.mjs does not import the module's calls as expected")
    return text.replace(line, f"\n{calls}\n").replace("@VERSION@", version)


def write(name, data):
    """Writes a file of the outputs, whole or not at all."""
    part = OUT / f"{name}.part"
    part.write_bytes(data)
    part.replace(OUT / name)


def write_page(version, notices):
    """Writes the page, the program for node and the files for C; the modules and the library are there."""
    write(PAGE, page.page((OUT / WASM32).read_bytes(), version, notices).encode("utf-8"))
    write(NODE, node_program(version).encode("utf-8"))
    (OUT / NODE).chmod(0o755)
    for name in (HEADER, EXAMPLE):
        write(name, (TOP / "web" / "native" / name).read_bytes())
    note_sources("PAGES")


def report(out=sys.stdout):
    for name in FILES:
        raw = (OUT / name).read_bytes()
        print(f"{hashlib.sha256(raw).hexdigest()}  {len(raw):>9}  web/out/{name}", file=out)
