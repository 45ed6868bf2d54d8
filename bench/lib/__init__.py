"""The modules of scripts/lib, for the programs of this folder."""
import pathlib

__path__ = [str(pathlib.Path(__file__).resolve().parents[2] / "scripts" / "lib")]
