"""Kept verdicts: a mutant that was killed isn't tried again on this machine while nothing changed of what was read then.

A verdict is kept under the sum of all that it stands on: the mutant's file and what was measured of it, its crate, the libraries below it,
the toolchain, and this tool. They lie in `mutants` below $XDG_CACHE_HOME or ~/.cache, a file each, which goes where no run asked for it in
30 days.
"""
import contextlib
import glob
import hashlib
import os
import time

HERE = os.path.dirname(os.path.abspath(__file__))
DAYS = 30


def sum_of(paths, begin):
    """A sum of these files, by their names and all that stands in them."""
    whole = hashlib.sha256(begin.encode())
    for path in paths:
        with open(path, "rb") as file:
            whole.update(f"{os.path.basename(path)} {hashlib.sha256(file.read()).hexdigest()}\n".encode())
    return whole.hexdigest()


class KeptVerdicts:
    """The kept verdicts, of which a run `anew` takes none."""

    def __init__(self, kit, is_anew):
        self.is_anew, self.folder = is_anew, f"{os.environ.get('XDG_CACHE_HOME') or os.path.expanduser('~/.cache')}/mutants"
        with contextlib.suppress(OSError):
            os.makedirs(self.folder, exist_ok=True)
            for path in glob.glob(f"{self.folder}/*"):
                if time.time() - os.path.getmtime(path) > DAYS * 86400:
                    os.remove(path)
        self.tool = sum_of([f"{kit}/KIT-ID", f"{kit}/bin/rattle", *sorted(glob.glob(f"{HERE}/*.py"))], "")

    def crate_sum(self, folder, libraries):
        """The sum of what all verdicts on a crate's mutants stand on. A library's file `format` has the sum of all that is in it."""
        files = sorted(it for part in ("src", "specs", "proofs") for it in glob.glob(f"{part}/**/*.*t", root_dir=folder, recursive=True))
        return sum_of([*(f"{folder}/{it}" for it in files), *(f"{it}/format" for it in libraries)], " ".join([self.tool, *files]))

    def place(self, crate, mutant):
        """Where the verdict on a mutant is kept, given the sum of its crate."""
        return f"{self.folder}/{sum_of([mutant.path], f'{crate} {mutant.measured.line(mutant.name)}')}"

    def reason(self, crate, mutant):
        """Why this mutant of a crate with this sum was killed, if that is kept."""
        with contextlib.suppress(OSError):
            place = self.place(crate, mutant)
            os.utime(place)
            with open(place, encoding="utf-8") as file:
                return "" if self.is_anew else file.read()
        return ""

    def keep(self, crate, mutant, why):
        """Keeps why a mutant was killed."""
        with contextlib.suppress(OSError):
            place = self.place(crate, mutant)
            with open(f"{place}.new", "w", encoding="utf-8") as file:
                file.write(why)
            os.replace(f"{place}.new", place)
