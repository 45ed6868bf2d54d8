"""`rt ci` while it runs: the crates proved so far, the first failure, and the number of its running checks."""
import os
import re
import subprocess
import sys
import threading
import time

from lib import processes

# The line that `rt ci` prints for a crate whose library can be used from then on.
PROVED = re.compile(r"rt: (\w+) (?:proved$|is kept: )")
# The line that it prints after a failed proof or test, before it goes on with other crates.
FAILED = re.compile(r"rt: .*\b(NOT PROVED|FAILED)\b")
# Seconds of processor time that a check has used soon after it began. The shell that `rt` keeps next to its checks
# waits and uses none.
SPENT = 0.1


class Proving:
    """`rt ci` running in a folder. A crate gets the processors that no other crate waits for, because most crates are
    on one path. It is stopped at its first failure."""

    def __init__(self, command, folder, out=sys.stdout):
        self.out = out
        # Its status and processor seconds, after it has ended.
        self.status, self.seconds = None, 0.0
        self.proved, self.failure = set(), None
        self.running = subprocess.Popen(
            command,
            cwd=folder,
            stdin=subprocess.DEVNULL,
            stdout=subprocess.PIPE,
            stderr=subprocess.STDOUT,
            text=True,
            errors="replace",
        )
        self.following = threading.Thread(target=self.follow)
        self.following.start()

    def wait(self):
        """Waits for its end and returns its status."""
        self.following.join()
        return self.status

    def follow(self):
        for line in self.running.stdout:
            print(line, end="", file=self.out, flush=True)
            found = PROVED.match(line)
            if found:
                self.proved.add(found[1])
            elif FAILED.match(line) and not self.failure:
                self.failure = line.strip()
                self.stop()
        _, status, usage = os.wait4(self.running.pid, 0)
        self.seconds = usage.ru_utime + usage.ru_stime
        self.running.returncode = os.waitstatus_to_exitcode(status)
        self.status = self.running.returncode

    def stop(self):
        """Ends it and the checks that it started."""
        if self.status is None:
            processes.kill(self.running.pid)

    def has_failed(self):
        return bool(self.failure) or self.status not in (None, 0)

    def has_built_below(self, crate):
        # Before the first proof it has no checks to count, but keeps the processors busy.
        return self.status == 0 or bool(self.proved) and all(below.name in self.proved for below in crate.below())

    def checks(self):
        """Returns the number of its running checks: the greater of two samples, since there is a pause between
        checks."""
        looks = [at_work(self.running.pid)]
        if self.status is None:
            time.sleep(2)
            looks.append(at_work(self.running.pid))
        return max(looks) if self.status is None else 0


def at_work(parent):
    """Returns how many children of a process have used processor time."""
    return sum(above == parent and own >= SPENT for _, above, own, _ in processes.all_of_them())
