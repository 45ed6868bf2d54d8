"""Modules that the programs of scripts/ share.

Importing one makes the packages of web/ and python/ importable too: no other module of scripts/ and web/ edits
`sys.path`.
"""
import sys

from lib.command import TOP

sys.path += [str(TOP), str(TOP / "python")]
