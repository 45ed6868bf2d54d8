"""The part of a release that runs in a browser, in node and from C: the files that scripts/web makes."""
import shutil
import subprocess

from lib.command import TOP
from web.build import outputs

# The second module is for comparison, and is not shipped.
SHIPPED = [name for name in outputs.FILES if name != outputs.WASM64]


def write(folder):
    """Copies the files into the folder, and returns their paths. Files that are missing or old are built first."""
    words = outputs.update()
    if words is not None and subprocess.run([TOP / "scripts" / "web", *words], stdout=subprocess.DEVNULL).returncode:
        raise SystemExit("release: scripts/web failed")
    return [shutil.copy(outputs.OUT / name, folder / name) for name in SHIPPED]
