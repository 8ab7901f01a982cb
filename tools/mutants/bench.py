"""What runs checks of copies of crates, over their libraries."""
import os
import shutil
import subprocess

from mutants.edits import text_of
from mutants.kept_verdicts import KeptVerdicts

TOP = os.path.dirname(os.path.dirname(os.path.dirname(os.path.abspath(__file__))))
# So much free memory is needed for each crate that is tried beside others, in kB.
MEMORY = 4 << 20


def kit_folder():
    """Where the toolchain is."""
    return os.path.dirname(subprocess.run(["rt", "doc"], capture_output=True, text=True, check=True).stdout.strip())


def crates_below(top):
    """The crates that each crate of the repository names as its dependencies, in the order of crates.txt."""
    below = {}
    for line in text_of(f"{top}/crates.txt").splitlines():
        name, colon, rest = line.split("#")[0].partition(":")
        if colon:
            below[name.split()[0]] = rest.split()
    return below


class Bench:
    """Runs checks. As many crates are tried side by side as is said, or else as there are cores, and 4 GB of free memory for each."""

    def __init__(self, libraries, jobs, is_anew, has_shells=True, top=TOP, kit=""):
        free = next(int(it.split()[1]) for it in text_of("/proc/meminfo").splitlines() if it.startswith("MemAvailable"))
        self.jobs = jobs or max(1, min(len(os.sched_getaffinity(0)), free // MEMORY))
        self.kit, self.top, self.libraries, self.has_shells = kit or kit_folder(), top, libraries, has_shells
        self.below, self.verdicts = crates_below(top), KeptVerdicts(self.kit, is_anew)

    def folder_of(self, crate):
        """Where the library of the crate is, or nothing if it isn't there."""
        own = self.libraries or f"{self.top}/crates/{crate}/out/rlib"
        return next((it for it in (own, f"{self.kit}/rlibs") if os.path.isdir(f"{it}/{crate}.rlib")), "")

    def take_library(self, crate):
        """Takes the library of a crate, if it is one, from where `rt ci` leaves it."""
        made = f"{self.top}/crates/{crate}/out/rlib/{crate}.rlib"
        if os.path.isdir(made):
            shutil.copytree(made, f"{self.libraries}/{crate}.rlib", copy_function=link_or_copy)

    def lacks(self, crate):
        """Which library below a crate isn't there, or nothing."""
        return next((f"the library {it} is not there" for it in self.below[crate] if not self.folder_of(it)), "")

    def with_mutants(self):
        """The crates that have mutants."""
        return [it for it in self.below if os.path.isdir(f"{self.top}/crates/{it}/mutants")]

    def all_below(self, crate):
        """The crates of the repository that the crate stands on."""
        names = {crate}
        while (more := {low for it in names for low in self.below.get(it, [])} - names):
            names |= more
        return names & set(self.below) - {crate}

    def stands_on(self, crate):
        """The libraries of these, in the order of crates.txt."""
        names = self.all_below(crate)
        return [f"{self.folder_of(it)}/{it}.rlib" for it in self.below if it in names]

    def command(self, crate):
        """The words of a check of a crate."""
        root = "src/lib.rt" if os.path.isfile(f"{self.top}/crates/{crate}/src/lib.rt") else "src/main.rt"
        words = [f"{self.kit}/bin/rattle", "check", "--crate-name", crate, root, "--extern", f"std={self.kit}/rlibs/std.rlib"]
        for name in self.below[crate]:
            words += ["--extern", f"{name}={self.folder_of(name)}/{name}.rlib"]
        for name in sorted(self.all_below(crate)):
            words += ["-L", f"dependency={self.folder_of(name) or self.kit + '/rlibs'}"]
        words += ["-L", f"dependency={self.kit}/rlibs", "--antt-project", f"{self.kit}/rattle/logic/antt-project.json"]
        return [*words, "--logic-built", f"{self.kit}/logic_built", "--links", f"{crate}=", "--jobs", "1"]

    def run(self, words, room):
        """What the command says in that folder, and its CPU seconds."""
        with open(f"{room}/said", "w+", encoding="utf-8") as said:
            started = subprocess.Popen(words, cwd=room, stdin=subprocess.DEVNULL, stdout=said, stderr=subprocess.STDOUT)
            _, status, used = os.wait4(started.pid, 0)
            started.returncode = os.waitstatus_to_exitcode(status)
            said.seek(0)
            return said.read(), used.ru_utime + used.ru_stime


def link_or_copy(one, other):
    """Copies a file of what checks keep, or of a library. What is proved stands in files that are replaced, and don't change."""
    try:
        return os.link(one, other) if one.endswith(".oantt") else shutil.copy2(one, other)
    except OSError:
        return shutil.copy2(one, other)
