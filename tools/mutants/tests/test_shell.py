"""Tests of shell.py: what a shell of the small crate has."""
import os
import shutil

from mutants.shell import Shell
from mutants.tests.small_crate import SmallCrate, read


class Shells(SmallCrate):
    def shell(self, names=("b",), is_known=False):
        """Makes a shell with twins for these mutants, and answers its source."""
        crate, room = self.crate(), f"{self.top}/room"
        shutil.copytree(self.folder, room)
        Shell("small", room, crate.functions, (), [it for it in crate.mutants if it.name in names], is_known)
        self.room = room
        return read(f"{room}/src/lib.rt")

    def setUp(self):
        super().setUp()
        self.mutant("b", "second", "one() + 1", "one() + 2", measured="goals: returns other +2")
        self.put(f"{self.folder}/proofs/second/Answers.antt", "use Rattle.small.proofs.second.Goals as goal\n")
        self.put(f"{self.folder}/proofs/one/Answers.antt", "")

    def test_a_twin_stands_for_the_mutant(self):
        source = self.shell()
        self.assertIn("\n\n/// The second one.\npub fn second_mutant0() -> u8\n    ensures { result ≡ 2 }\n{\n    one() + 2\n}\n", source)
        self.assertIn("proofs.second_mutant0.Goals", read(f"{self.room}/proofs/second_mutant0/Answers.antt"))

    def test_what_the_twin_calls_is_taken_as_met(self):
        source = self.shell()
        self.assertIn("pub fn one() -> u8\n    ensures { result ≡ 1 }\n{\n    loop {}\n}\n", source)
        self.assertIn("one_spec = taken_as_met", read(f"{self.room}/proofs/one/Proof.antt"))
        self.assertFalse(os.path.exists(f"{self.room}/proofs/one/Answers.antt"))
        self.assertIn("taken_as_met = ?", read(f"{self.room}/proofs/TakenAsMet.antt"))
        self.assertIn("mod TakenAsMet\n", read(f"{self.room}/proofs/Lib.antt"))

    def test_what_nothing_names_is_left_out(self):
        self.assertNotIn("fn second()", self.shell())

    def test_all_but_the_first_goal_are_taken_as_met(self):
        self.shell(is_known=True)
        answers = read(f"{self.room}/proofs/second_mutant0/Answers.antt")
        self.assertIn("other = taken_as_met", answers)
        self.assertNotIn("returns = taken_as_met", answers)
        self.assertNotIn("+2", answers)

    def test_a_shell_of_theorems_alone(self):
        source = self.shell(())
        self.assertNotIn("fn second", source)
        self.assertIn("pub fn six_is_six()\n    ensures { six ≡ 6 }\n{}\n", source)
