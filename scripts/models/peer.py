"""glpsol on a model's twin."""
import subprocess

SECONDS = 60


class TwinFault(Exception):
    """glpsol did not take the twin."""


def solved(folder):
    """Returns the optimal value of twin.mod in the folder, or None if there is no plan."""
    words = ["glpsol", "--math", "twin.mod", "--nopresol", "-w", "twin.sol"]
    try:
        done = subprocess.run(words, cwd=folder, capture_output=True, text=True, check=False, timeout=SECONDS)
    except subprocess.TimeoutExpired as error:
        raise TwinFault(f"no answer within {SECONDS} seconds") from error
    (folder / "twin.txt").write_text(done.stdout)
    if done.returncode or not (folder / "twin.sol").exists():
        raise TwinFault(done.stdout.strip().splitlines()[-1] if done.stdout else "no output")
    line = next(
        status_line for status_line in (folder / "twin.sol").read_text().splitlines() if status_line.startswith("s ")
    )
    status, value = line.split()[4], float(line.split()[6])
    if status not in "fni" or (status == "f" and abs(value - round(value)) > 1e-6):
        raise TwinFault(line)
    return round(value) if status == "f" else None
