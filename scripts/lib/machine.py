"""How fast the machine is now: the time of bench/floor.cc, a plain program, for the planner's network. Proofs are
measured beside it, because machines differ by a factor of two, and one machine from hour to hour."""
import pathlib
import statistics
import tempfile
import threading

from lib.measuring import call, compiled, make

PLANNER = ("10000", "98000", "1")


class PlainProgram:
    """bench/floor.cc, compiled in a temporary folder, with the planner's network. Without a C++ compiler nothing is
    measured."""

    def __init__(self):
        self.folder, self.times, self.ended = tempfile.TemporaryDirectory(prefix="machine-"), [], threading.Event()
        room = pathlib.Path(self.folder.name)
        self.program = compiled("floor.cc", room)
        if self.program:
            self.inputs = [make(room / part, "make_planner", part, *PLANNER) for part in ("model", "data")]

    def measure(self):
        """Runs the program once and keeps its milliseconds of processor time."""
        with tempfile.TemporaryFile() as out:
            self.times.append(call([self.program, *self.inputs], out)[0] * 1e3)

    def start(self, seconds=60):
        """Measures now and then once in so many seconds, until `stop`, in a thread of its own."""

        def repeat():
            self.measure()
            while not self.ended.wait(seconds):
                self.measure()

        if self.program:
            threading.Thread(target=repeat, daemon=True).start()

    def stop(self):
        """Ends the measurements; returns their median in milliseconds, or None without a C++ compiler."""
        self.ended.set()
        return statistics.median(self.times) if self.times else None
