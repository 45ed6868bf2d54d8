"""Adds the built program to the wheel, with its platform.

The program is that of the checkout, or the one that the variable NETFLOW_PROGRAM names. NETFLOW_NOTICES can name a
file with the notices of the libraries that are linked in, and NETFLOW_VERSION the version. An editable
installation uses the program of the checkout.
"""
from __future__ import annotations

import os
import pathlib
import re
from typing import Any

from hatchling.builders.hooks.plugin.interface import BuildHookInterface

PACKAGE = pathlib.Path(__file__).resolve().parent
TOP = PACKAGE.parent
NO_PROGRAM = """the program netflow is not built: there is no {program}.
Run scripts/build at the top of the checkout first, or set NETFLOW_PROGRAM to its path."""


def version_of_wheel() -> str:
    """Returns the version of the package, or the one that NETFLOW_VERSION gives for a commit after that release."""
    text = (PACKAGE / "netflow" / "__init__.py").read_text(encoding="utf-8")
    found = re.search(r'(?m)^__version__ = "(.*)"$', text)
    assert found is not None
    return os.environ.get("NETFLOW_VERSION") or found[1]


class ProgramHook(BuildHookInterface):
    """The custom build hook of hatchling."""

    def initialize(self, version: str, build_data: dict[str, Any]) -> None:
        program = pathlib.Path(os.environ.get("NETFLOW_PROGRAM") or TOP / "crates" / "netflow" / "out" / "netflow")
        if not os.access(program, os.X_OK):
            raise SystemExit(NO_PROGRAM.format(program=program))
        if version == "editable":
            return
        build_data["pure_python"] = False
        build_data["tag"] = f"py3-none-manylinux_{'_'.join(map(str, glibc_of(program)))}_x86_64"
        included = {program: "netflow/bin/netflow", TOP / "docs" / "reference" / "errors.md": "netflow/errors.md"}
        notices = os.environ.get("NETFLOW_NOTICES")
        if notices:
            included[pathlib.Path(notices)] = "netflow/NOTICES.txt"
        for licence in sorted(TOP.glob("LICENSE*")):
            included[licence] = f"netflow/{licence.name}"
        build_data["force_include"].update({str(path): name for path, name in included.items()})


def glibc_of(program: pathlib.Path) -> tuple[int, ...]:
    """Returns the least version of the GNU C library that has all that the program needs."""
    found = re.findall(rb"GLIBC_(\d+(?:\.\d+)+)", program.read_bytes())
    return max((tuple(map(int, version.split(b"."))) for version in found), default=(2, 34))
