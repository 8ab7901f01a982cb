"""Trying mutants beside `rt ci`: those of a crate as soon as all that the crate stands on is proved, and what is left when it has ended.

What `rt ci` says stands in a file, and behind it what it ended with. Once it says that a crate is proved, or kept from an earlier run, the
crate's library is there. It is taken then: when `rt ci` ends, it puts back what an earlier run left in its place. The longest chain of
crates decides how long it takes, so near its end most processors have nothing else to do.
"""
import contextlib
import os
import re
import time
from concurrent.futures import ThreadPoolExecutor

PROVED = re.compile(r"^rt: (\w+) (?:proved|is kept)\b", re.M)
ENDED = re.compile(r"^the gate has ended with status (\d+)$", re.M)


def give_way():
    """Lets all else go first. What a system weighs by sessions it weighs by this one, which a process of its own group can have."""
    os.nice(10)
    with contextlib.suppress(OSError):
        os.setsid()
        with open("/proc/self/autogroup", "w", encoding="utf-8") as file:
            file.write("10")


def look(path):
    """The crates that are proved so far, and with what the gate has ended, if it has."""
    with open(path, encoding="utf-8", errors="replace") as file:
        said = file.read()
    ended = ENDED.search(said)
    return PROVED.findall(said), ended and int(ended[1])


def processors_left():
    """How many processors had nothing to do in the last minute."""
    return len(os.sched_getaffinity(0)) - round(os.getloadavg()[0])


class BesideGate:
    """Crates that are tried beside a gate. `take` takes the library of a crate, `below` answers the crates that one stands on, `attempt` is
    what is answered of a crate. So many are tried at once when the gate has ended, and so many beside it, where processors are left: what
    waits for one makes all else dearer."""

    def __init__(self, path, take, below, attempt, jobs, beside, left=processors_left):
        self.path, self.take, self.below, self.attempt, self.left = path, take, below, attempt, left
        self.jobs, self.beside, self.taken, self.tried, self.parent = jobs, beside, set(), {}, os.getppid()

    def room(self, has_ended):
        """How many more may be tried now."""
        running = sum(not it.done() for it in self.tried.values())
        return max(0, self.jobs - running if has_ended else min(self.beside - running, self.left()))

    def ready(self, waiting, proved, has_ended):
        """Those of the crates that wait for nothing, and for which there is room."""
        for crate in proved:
            if crate not in self.taken:
                self.take(crate)
                self.taken.add(crate)
        return [it for it in waiting if has_ended or self.below(it) <= self.taken][: self.room(has_ended)]

    def try_all(self, names, pause=1):
        """What is answered of these crates, in their order, and which ones weren't tried, since the gate has failed."""
        waiting = [*names]
        with ThreadPoolExecutor(self.jobs) as pool:
            while waiting:
                proved, status = look(self.path)
                if status or os.getppid() != self.parent:
                    break
                for it in self.ready(waiting, proved, status is not None):
                    self.tried[it] = pool.submit(self.attempt, it)
                    waiting.remove(it)
                if waiting:
                    time.sleep(pause)
        return [self.tried[it].result() for it in names if it in self.tried], waiting
