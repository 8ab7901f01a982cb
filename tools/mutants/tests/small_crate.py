"""A small crate in a temporary folder, and a bench that runs no prover: what a check says there is given by the test."""
import os
import tempfile
import unittest
from unittest import mock

from mutants.bench import Bench
from mutants.crate import Crate

SOURCE = """//! Small functions, one of which calls the other.
#![tactic(auto)]

pub fn one() -> u8
    ensures { result ≡ 1 }
{
    1
}

/// The second one.
pub fn second() -> u8
    ensures { result ≡ 2 }
{
    one() + 1
}

pub fn six_is_six()
    ensures { six ≡ 6 }
{}
"""
NUMBERS = "abbrev pub six : ℕ\nsix = 6\n\nabbrev pub seven : ℕ\nseven = 7\n"
LEMMAS = "pub six_known : six ≡ 6\nsix_known = refl\n\npub seven_known : seven ≡ 7\nseven_known = refl\n"
ENDED = "only=1 proved=1\n"


class CannedBench(Bench):
    """A bench whose checks say what `says` answers, given the functions that are asked for and the folder of the copy."""

    def __init__(self, says, **words):
        super().__init__("", 1, **words)
        self.says, self.asked = says, []

    def run(self, words, room):
        only = [word for key, word in zip(words, words[1:]) if key == "--only"]
        self.asked.append(only)
        return self.says(only, room) + ENDED, 1.5


def read(path):
    """What stands in a file, or nothing if it isn't there."""
    if not os.path.isfile(path):
        return ""
    with open(path, encoding="utf-8") as file:
        return file.read()


class SmallCrate(unittest.TestCase):
    """A test over the small crate. `self.top` is its repository, `self.folder` the crate's folder."""

    def setUp(self):
        room = tempfile.TemporaryDirectory(prefix="mutants-unittest-")
        self.addCleanup(room.cleanup)
        self.top, self.kit, self.folder = f"{room.name}/top", f"{room.name}/kit", f"{room.name}/top/crates/small"
        cache = mock.patch.dict(os.environ, {"XDG_CACHE_HOME": f"{room.name}/cache"})
        cache.start()
        self.addCleanup(cache.stop)
        for path, text in {"KIT-ID": "a kit", "bin/rattle": ""}.items():
            self.put(f"{self.kit}/{path}", text)
        self.put(f"{self.top}/crates.txt", "small:\n")
        self.put(f"{self.folder}/src/lib.rt", SOURCE)
        self.put(f"{self.folder}/specs/Numbers.antt", NUMBERS)
        self.put(f"{self.folder}/proofs/Lemmas.antt", LEMMAS)
        self.put(f"{self.folder}/proofs/six_is_six/Answers.antt", "use Rattle.small.proofs.Lemmas.{six_known, seven_known}\n")
        os.makedirs(f"{self.folder}/mutants")

    def put(self, path, text):
        """Writes a file."""
        os.makedirs(os.path.dirname(path), exist_ok=True)
        with open(path, "w", encoding="utf-8") as file:
            file.write(text)

    def mutant(self, name, function, old, new, file="src/lib.rt", measured=""):
        """Writes a mutant's file, and what was measured of it."""
        self.put(f"{self.folder}/mutants/{name}.edit", f"function: {function}\nfile: {file}\nold: {old}\nnew: {new}\n")
        if measured:
            path = f"{self.folder}/mutants/measured.txt"
            self.put(path, f"{read(path)}{name} {measured}\n")

    def definition(self, name, old, new, measured=""):
        """Writes a mutant of a definition that `six_is_six` is about."""
        self.mutant(name, "six_is_six", old, new, "specs/Numbers.antt", measured)

    def crate(self, says=lambda only, room: "", **words):
        """The crate over a bench whose checks say so."""
        return Crate("small", CannedBench(says, top=self.top, kit=self.kit, **{"is_anew": False, **words}))
