"""scripts/install: where it puts files, and that --uninstall takes away exactly these."""
import os
import subprocess

import pytest

from support import BREAD, TOP

LIST = "share/netflow/installed.txt"


def install(*words, cwd, **variables):
    done = subprocess.run(
        [TOP / "scripts" / "install", *words],
        cwd=cwd,
        env={**os.environ, **variables},
        capture_output=True,
        encoding="utf-8",
    )
    return done.returncode, done.stdout, done.stderr


def files_below(folder):
    """Returns the files and links below a folder, by their paths from there."""
    return sorted(str(path.relative_to(folder)) for path in folder.rglob("*") if path.is_symlink() or path.is_file())


def test_relative_prefix(tmp_path):
    """A relative prefix begins where the caller is, and a blank in it does no harm."""
    status, text, errors = install("a prefix", cwd=tmp_path)
    prefix = tmp_path / "a prefix"
    assert (status, errors) == (0, "") and text == f"netflow is in {prefix}/bin\n"
    assert files_below(tmp_path) == [f"a prefix/{name}" for name in files_below(prefix)]
    words = [prefix / "bin" / "netflow", "solve", BREAD / "bread.mod", BREAD / "bread.dat"]
    assert subprocess.run(words, capture_output=True, encoding="utf-8").stdout.startswith("Total = 440\n")


def test_destdir(tmp_path):
    """DESTDIR goes before the prefix, and everything is below it, as packages need it."""
    status, text, _ = install("/usr/local", cwd=tmp_path, DESTDIR=str(tmp_path / "image"))
    assert status == 0 and text == f"netflow is in {tmp_path}/image/usr/local/bin\n"
    assert os.listdir(tmp_path) == ["image"] and os.listdir(tmp_path / "image") == ["usr"]
    links = [path for path in (tmp_path / "image").rglob("*") if path.is_symlink()]
    assert links and all(not os.path.isabs(os.readlink(path)) and path.exists() for path in links)
    install("--uninstall", "/usr/local", cwd=tmp_path, DESTDIR=str(tmp_path / "image"))
    assert files_below(tmp_path) == []


def test_uninstall(tmp_path):
    """The list has every file; --uninstall removes these, what Python compiled, and empty folders, and nothing else."""
    install("prefix", cwd=tmp_path)
    prefix = tmp_path / "prefix"
    assert (prefix / LIST).read_text(encoding="utf-8").splitlines() == files_below(prefix)
    (prefix / "bin" / "other").write_text("mine", encoding="ascii")
    subprocess.run([prefix / "bin" / "netflow-why", "--help"], env=without_variable(), stdout=subprocess.DEVNULL)
    assert install("--uninstall", "prefix", cwd=tmp_path)[0] == 0
    assert files_below(tmp_path) == ["prefix/bin/other"]
    assert sorted(path.name for path in prefix.rglob("*")) == ["bin", "other"]
    status, _, errors = install("--uninstall", "prefix", cwd=tmp_path)
    assert status == 1 and "no list" in errors


def without_variable():
    """Returns the environment in which Python keeps what it compiled."""
    return {name: value for name, value in os.environ.items() if name != "PYTHONDONTWRITEBYTECODE"}


def test_install_again(tmp_path):
    """A file of an older version that is no longer part of netflow is removed; others stay."""
    install("prefix", cwd=tmp_path)
    prefix, before = tmp_path / "prefix", files_below(tmp_path / "prefix")
    for name in ("share/netflow/gone/old.py", "bin/mine"):
        (prefix / name).parent.mkdir(exist_ok=True)
        (prefix / name).write_text("", encoding="ascii")
    listed = sorted([*before, "share/netflow/gone/old.py"])
    (prefix / LIST).write_text("".join(f"{name}\n" for name in listed), encoding="utf-8")
    assert install("prefix", cwd=tmp_path)[0] == 0
    assert files_below(prefix) == sorted([*before, "bin/mine"])
    assert not (prefix / "share" / "netflow" / "gone").exists()


@pytest.mark.parametrize("words", ([], ["--uninstall"], ["--other"], ["a", "b"], ["--uninstall", "-x"]))
def test_wrong_words(tmp_path, words):
    status, text, errors = install(*words, cwd=tmp_path)
    assert (status, text) == (2, "") and "usage: scripts/install" in errors
    assert files_below(tmp_path) == []
