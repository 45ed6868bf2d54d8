"""The tools' words, compared with their manual page and completions, and how scripts/first_look passes files on."""
import importlib.machinery
import importlib.util
import json
import pathlib
import re
import shutil
import subprocess

import pytest

from netflow.reading.headings import first_comment
from support import BREAD, BUILT, TOOL_NAMES, TOP, run, write


def script(path):
    """Returns a script without a suffix as a module."""
    loader = importlib.machinery.SourceFileLoader(path.name.replace("-", "_"), str(path))
    module = importlib.util.module_from_spec(importlib.util.spec_from_loader(loader.name, loader))
    loader.exec_module(module)
    return module


LOOK = script(TOP / "scripts" / "first_look")


# Each text that has to list the helper tools: a file, and the pattern of a line about one of them or of all of them.
LISTS = (
    ("python/pyproject.toml", r"^(netflow-\w+) ="),
    ("python/README.md", r"helper tools ([^\n]*)"),
    ("crates/netflow/src/command_words.rt", r"^  (netflow-\w+)  +\w"),
    ("docs/guide/tools.md", r"^## (netflow-\w+):"),
    ("share/netflow-companions.1", r"^(netflow-\w+, .*) \\-"),
    ("share/completions/netflow.bash", r"^complete .* _netflow_companion (.*)"),
    ("share/completions/netflow.fish", r"^for tool in (.*)"),
    ("share/completions/_netflow-companions", r"^#compdef (.*)"),
)


@pytest.mark.parametrize("file, pattern", LISTS, ids=[file for file, _ in LISTS])
def test_lists_of_tools(file, pattern):
    lines = re.findall(pattern, (TOP / file).read_text(encoding="utf-8"), re.M)
    assert sorted(set(re.findall(r"netflow-\w+", " ".join(lines)))) == TOOL_NAMES


def tree_without_a_build(folder):
    """Makes a tree with links to the files of this one, whose ./netflow builds nothing, however old the program is."""
    for path in TOP.iterdir():
        if path.name not in (".git", "netflow", "scripts"):
            (folder / path.name).symlink_to(path)
    (folder / "scripts").mkdir()
    shutil.copy2(TOP / "scripts" / "install", folder / "scripts")
    write(folder, "netflow", "#!/bin/sh\n").chmod(0o755)
    return folder


@pytest.mark.skipif(not BUILT.exists(), reason="the program is not built")
def test_installed_tools(tmp_path_factory):
    """Installs, without building the program, and finds each tool with its manual page and completions."""
    tree, prefix = tree_without_a_build(tmp_path_factory.mktemp("tree")), tmp_path_factory.mktemp("prefix")
    subprocess.run([tree / "scripts" / "install", prefix], check=True, stdout=subprocess.DEVNULL)
    for folder, end in (
        ("bin", ""),
        ("share/man/man1", ".1"),
        ("share/bash-completion/completions", ""),
        ("share/fish/vendor_completions.d", ".fish"),
    ):
        linked = [path for path in (prefix / folder).glob("netflow-*") if path.is_symlink()]
        assert sorted(path.name for path in linked) == [name + end for name in TOOL_NAMES]
        assert all(path.resolve().is_file() for path in linked)
    words = [prefix / "bin" / "netflow-why", BREAD / "bread.mod", BREAD / "bread.dat"]
    assert "Total = 440" in subprocess.run(words, check=True, capture_output=True, encoding="utf-8").stdout


def test_words():
    """Each tool and each of its options is in the manual page and in the completions."""
    manual = (TOP / "share" / "netflow-companions.1").read_text(encoding="utf-8").replace("\\-", "-")
    completions = [
        (TOP / "share" / "completions" / name).read_text(encoding="utf-8")
        for name in ("netflow.bash", "netflow.fish", "_netflow-companions")
    ]
    for name in TOOL_NAMES:
        usage = run(name, "--help")[1].partition("\n\n")[0]
        assert f".B {name}" in manual and all(
            name in completion for completion in completions
        ), f"{name}: not in the manual page or a completion"
        for option in set(re.findall(r"--[a-z]+", usage)):
            told = [
                option in manual,
                option in completions[0],
                f"-l {option[2:]}" in completions[1],
                option in completions[2],
            ]
            assert all(told), f"{name} {option}: not in the manual page or a completion: {told}"


def test_editors():
    """Each word of the language is in the syntax files of Vim and VS Code, whose patterns are well-formed."""
    vim = (TOP / "share" / "editors" / "netflow.vim").read_text(encoding="utf-8")
    grammar = json.loads(
        (TOP / "share" / "editors" / "vscode" / "syntaxes" / "netflow.tmLanguage.json").read_text(encoding="utf-8")
    )
    patterns = [re.compile(pattern["match"]) for pattern in grammar["patterns"] if "match" in pattern]
    page = (TOP / "docs" / "reference" / "language.md").read_text(encoding="utf-8")
    words = re.search(r"(?m)^```\n(and arc .*?)^```", page, re.S)
    assert words, "docs/reference/language.md has no list of reserved words"
    for word in words[1].split() if words else ():
        assert re.search(rf"\b{word}\b", vim), f"share/editors/netflow.vim: no {word}"
        assert any(found.fullmatch(word) for found in patterns), f"netflow.tmLanguage.json: no {word}"


TITLES = (
    (
        "# Coils from three mills\n# to seven towns, as in the book. In dollars.\nset S;",
        "Coils from three mills to seven towns, as in the book",
    ),
    ("/* Shifts of the ward\n   for two weeks. */", "Shifts of the ward for two weeks"),
    ("# =====\n# Bread\n# Author: Jane\n", "Bread"),
    ("# To St. Gallen, e.g. by van. More.", "To St. Gallen, e.g. by van"),
    ("set S; # no title\n", ""),
    ("# Costs of 3.5 (see p. 4). More", "Costs of 3.5 (see p. 4)"),
    ("# one\n\n# two", "one"),
    ("# " + "word " * 40, "word " * 39 + "word"),
)


@pytest.mark.parametrize("text, title", TITLES)
def test_title(text, title):
    """A page's title is the first sentence of the comment that the model begins with."""
    assert first_comment(text) == title


def test_first_look_stages_files(tmp_path):
    """Files go to the run under names without blanks; what is no file stays as it is."""
    path = write(tmp_path, "a model.mod", "node ;\n")
    words = ["solve", str(path), "/dev/null", "--objective", str(path), "/nowhere/x"]
    staged = LOOK.staged(words, pathlib.Path(tmp_path))
    assert staged == ["--data", f"text1={path.resolve()}", "--", "solve", "text1", *words[2:]], "first_look: words"


def test_progress_of_a_build():
    """While the last crate is proved, the line says so, and not that none is left."""
    progress = script(TOP / "scripts" / "build").progress
    assert progress(["net_sets", "net_lex"], 3, 21) == "proving net_lex, net_sets; 3 of 21 crates are proved"
    assert progress(["netflow"], 20, 21) == "proving netflow, the last one; 20 of 21 crates are proved"
