"""Tests of trial.py."""
from mutants.tests.small_crate import NUMBERS, SmallCrate
from mutants.trial import crate_of, try_crate

REFUSED = "not proved: `search` did not prove `returns`; what else"


def says(only, room):
    return "".join(f"fn small::{it}: {REFUSED}\n" for it in only)


class Trial(SmallCrate):
    def setUp(self):
        super().setUp()
        self.mutant("a", "one", "    1", "    2")
        self.definition("b", "six = 6", "six = 5")

    def test_both_kinds_are_tried_and_kept(self):
        crate = self.crate(says)
        try_crate(crate)
        self.assertEqual([crate.verdict(it)[0] for it in crate.mutants], ["killed", "killed"])
        again = crate_of("small", crate.bench)
        self.assertEqual((again.early, again.checks), (2, 0))

    def test_what_changes_meanwhile_does_not_count(self):
        def changes(only, room):
            self.put(f"{self.folder}/specs/Numbers.antt", NUMBERS + "\n")
            return says(only, room)

        crate = self.crate(changes)
        try_crate(crate)
        self.assertEqual({crate.verdict(it)[1] for it in crate.mutants}, {"what it was tried over has changed meanwhile"})
        self.assertEqual(self.crate(says).early, 0)
