"""The processes of the system, by /proc."""
import os
import signal


def all_of_them():
    """Yields the number, the parent, the processor seconds and those of ended children of each process."""
    for name in filter(str.isdigit, os.listdir("/proc")):
        try:
            with open(f"/proc/{name}/stat", encoding="utf-8", errors="replace") as stat:
                # After the command's name in parentheses: state, parent, and as 12th to 15th field the times, its own
                # and its children's.
                fields = stat.read().rpartition(")")[2].split()
        except OSError:
            # It has ended.
            continue
        own, ended = ((int(fields[at]) + int(fields[at + 1])) / os.sysconf("SC_CLK_TCK") for at in (11, 13))
        yield int(name), int(fields[1]), own, ended


def started_by(pid):
    """Returns a process and all that it started, with the processor seconds of each and of its ended children."""
    children: dict[int, list[int]] = {}
    seconds = {}
    for number, above, own, ended in all_of_them():
        children.setdefault(above, []).append(number)
        seconds[number] = own + ended
    found = [pid]
    for number in found:
        found += children.get(number, [])
    return {number: seconds.get(number, 0.0) for number in found}


def spent_by(pid):
    """Returns the processor seconds of a process and of all that it started."""
    return sum(started_by(pid).values())


def kill(pid):
    """Kills a process and all that it started."""
    for number in started_by(pid):
        try:
            os.kill(number, signal.SIGKILL)
        except ProcessLookupError:
            pass
