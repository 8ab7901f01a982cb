"""Tests of crate.py."""
import os

from mutants.check_output import KILLED, UNREAD, WAITS
from mutants.crate import Crate, lemmas_below
from mutants.tests.small_crate import SmallCrate, read


class Crates(SmallCrate):
    def test_without_a_bench(self):
        self.mutant("a", "one", "not there", "x")
        crate = Crate("small", top=self.top)
        self.assertIn("0 times", crate.mutants[0].wrong)

    def test_lemmas_below_a_theorem(self):
        self.assertEqual(lemmas_below(self.folder, "small", "six_is_six"), {"Lemmas"})
        self.definition("a", "six = 6", "six = 5", "breaks: six_is_six @Lemmas.six_known+1 @Other.far+1")
        self.assertEqual(self.crate().mutants[0].lemmas, {"@Lemmas.six_known+1"})

    def test_lemmas_below_a_theorem_that_names_one(self):
        path = f"{self.folder}/src/lib.rt"
        with open(path, "a", encoding="utf-8") as file:
            file.write("\n#[tactic(auto, using(crate::proofs::Lemmas::six_known))]\npub fn six_by_name()\n    ensures { Six }\n{}\n")
        self.assertEqual(lemmas_below(self.folder, "small", "six_by_name"), {"Lemmas"})

    def test_what_is_taken_as_met_is_so_for_the_function(self):
        self.mutant("a", "one", "    1", "    2", measured="goals: returns; met: x")
        self.mutant("b", "one", "    1", "    3", measured="goals: returns; met: y")
        self.assertEqual([it.met for it in self.crate().mutants], [["x", "y"], ["x", "y"]])

    def test_a_check_of_a_copy(self):
        self.mutant("a", "second", "one() + 1", "one() + 2")
        seen = []
        crate = self.crate(lambda only, room: seen.append(read(f"{room}/src/lib.rt")) or "fn small::second: proved\n")
        said = crate.check(crate.mutants, ["second"])
        self.assertIn("    one() + 2\n", seen[0])
        self.assertEqual((crate.bench.asked, crate.checks, crate.cpu), ([["second"]], 1, 1.5))
        crate.read(crate.mutants[0], said)
        self.assertEqual(crate.verdict(crate.mutants[0]), ("survived", "proved"))
        self.assertIn("one() + 1", read(f"{self.folder}/src/lib.rt"))

    def test_verdicts_that_are_kept(self):
        self.mutant("a", "one", "    1", "    2")
        crate = self.crate()
        self.assertEqual(crate.waiting(crate.mutants), crate.mutants)
        crate.bench.verdicts.keep(crate.sum, crate.mutants[0], "why")
        again = self.crate()
        self.assertEqual((again.verdict(again.mutants[0]), again.early), ((KILLED, "why"), 1))

    def test_what_cannot_be_tried_is_unread(self):
        self.mutant("a", "one", "    1", "    2")
        crate = self.crate()
        self.assertEqual(crate.verdict(crate.mutants[0])[0], WAITS)
        crate.mutants[0].wrong = "why"
        self.assertEqual(crate.verdict(crate.mutants[0]), (UNREAD, "why"))

    def test_work_is_shared_for_a_while(self):
        crate = self.crate()
        with crate.shared_work() as folder:
            self.assertEqual(crate.incremental, folder)
            self.assertTrue(os.path.isdir(folder))
        self.assertEqual((crate.incremental, os.path.isdir(folder)), ("", False))
