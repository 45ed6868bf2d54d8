"""The version and the licence of netflow.

The version is that of the newest release in CHANGELOG.md. A commit after that release has the version
`1.2.3+12.gabc1234`: 12 commits later, and the abbreviated hash of the commit. The release itself is the commit with the
tag `v1.2.3`; without a tag, the commit that gave CHANGELOG.md the heading of the release.
"""
import json
import re
import subprocess

from lib.command import TOP

LICENSE = "MIT OR Apache-2.0"
HOLDER = "The netflow authors"
LICENSE_FILES = ("LICENSE-MIT", "LICENSE-APACHE")

RELEASE = re.compile(r"(?m)^## \[(\d+\.\d+\.\d+)\] - (\d{4}-\d\d-\d\d)$")
# The files that repeat the version, and how they write it.
COPIES = {
    "crates/netflow/src/command_words.rt": 'const VERSION: &str = "{}";',
    "python/netflow/__init__.py": '__version__ = "{}"',
    "share/editors/vscode/package.json": '"version": "{}",',
    "share/netflow.1": '.TH NETFLOW 1 {date} "netflow {}" "User commands"',
    "share/netflow-companions.1": '.TH NETFLOW-COMPANIONS 1 {date} "netflow {}" "User commands"',
}


def newest_release():
    """Returns the number and the date of the newest release; fails if CHANGELOG.md has no heading `## [1.2.3] -
    2026-01-31`."""
    found = RELEASE.search((TOP / "CHANGELOG.md").read_text(encoding="utf-8"))
    if not found:
        raise SystemExit("CHANGELOG.md: no heading of the form '## [1.2.3] - 2026-01-31'")
    return found[1], found[2]


def version():
    """Returns the number of the newest release."""
    return newest_release()[0]


def git(*words):
    """Returns what git prints, or None if it fails."""
    done = subprocess.run(["git", *words], cwd=TOP, stdin=subprocess.DEVNULL, capture_output=True, encoding="utf-8")
    return None if done.returncode else done.stdout.strip()


def release_commit(number):
    """Returns the commit of a release."""
    release = git("rev-parse", "--verify", "--quiet", f"refs/tags/v{number}^{{commit}}")
    if not release:
        changes = git("log", "--format=%H", f"-S## [{number}] - ", "--", "CHANGELOG.md")
        if not changes:
            raise SystemExit(f"no commit of this clone has the release {number}; does it have the whole history?")
        release = changes.splitlines()[-1]
    return release


def version_of_commit():
    """Returns the version of the commit that is checked out: `1.2.3` for the release itself, `1.2.3+12.gabc1234` for a
    later commit."""
    number = version()
    count = int(git("rev-list", "--count", f"{release_commit(number)}..HEAD"))
    return f"{number}+{count}.g{git('rev-parse', '--short=7', 'HEAD')}" if count else number


def errors():
    """Yields the files that have another version than CHANGELOG.md, or another licence."""
    number, date = newest_release()
    for name, form in COPIES.items():
        wanted = form.format(number, date=date)
        if wanted not in (TOP / name).read_text(encoding="utf-8"):
            yield f"{name}: the newest release in CHANGELOG.md is {number} of {date}, and this file has no '{wanted}'"
    for name in LICENSE_FILES:
        if not (TOP / name).is_file():
            yield f"{name} does not exist"
    if f"`{LICENSE}`" not in (TOP / "README.md").read_text(encoding="utf-8"):
        yield f"README.md: does not name the licence `{LICENSE}`"
    if json.loads((TOP / "share/editors/vscode/package.json").read_text(encoding="utf-8")).get("license") != LICENSE:
        yield f"share/editors/vscode/package.json: the licence is not {LICENSE}"
    project = TOP / "python/pyproject.toml"
    text = project.read_text(encoding="utf-8") if project.exists() else f'license = "{LICENSE}"\n'
    if f'license = "{LICENSE}"\n' not in text:
        yield f"python/pyproject.toml: the licence is not {LICENSE}"
    found = re.search(r'(?m)^version = "([^"]*)"$', text)
    if found and found[1] != number:
        yield f"python/pyproject.toml: the version is {found[1]}, and the newest release in CHANGELOG.md is {number}"
