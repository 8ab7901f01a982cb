"""Tests of measure.py."""
import contextlib
import io

from mutants.measure import measure
from mutants.tests.small_crate import SOURCE, SmallCrate, read

REFUSED = "not proved: `search` did not prove `returns`; what else"


class Measure(SmallCrate):
    def says(self, only, room):
        if only:
            return "".join(f"fn small::{it}: {'proved' if it.endswith('less') else REFUSED}\n" for it in only)
        if "six = 6" in read(f"{room}/specs/Numbers.antt"):
            return "fn small::six_is_six: proved\n"
        return ("fn small::six_is_six: not proved\nproofs/six_is_six/Answers.antt:1:1: error: `returns`: `grind` fails\n"
                "proofs/Lemmas.antt:2:1: error: `six_known`: not equal\n")

    def in_a_cycle(self, only, room):
        """What a check says where a goal of a cycle's member is proved by its measure alone."""
        if "turns = taken_as_met" in read(f"{room}/proofs/turned_mutantless/Answers.antt"):
            return self.in_no_cycle(only, room)
        return "".join(f"fn small::{it}: {REFUSED.replace('returns', 'turns')}\n" for it in only)

    def measured(self, is_anew=False):
        with contextlib.redirect_stdout(io.StringIO()) as said:
            measure(self.crate(self.says), is_anew)
        self.said = said.getvalue()
        return read(f"{self.folder}/mutants/measured.txt")

    def test_it_is_written(self):
        self.mutant("a", "second", "one() + 1", "one() + 2")
        self.definition("b", "six = 6", "six = 5")
        self.assertEqual(self.measured(), "a goals: returns\nb breaks: six_is_six @Lemmas.six_known+1\n")
        self.assertEqual(self.said, "")

    def test_what_was_measured_stays_but_anew(self):
        self.mutant("a", "second", "one() + 1", "one() + 2", measured="goals: other")
        self.assertEqual(self.measured(), "a goals: other\n")
        self.assertEqual(self.measured(is_anew=True), "a goals: returns\n")

    def test_what_a_control_in_a_cycle_is_refused_at_is_met(self):
        self.put(f"{self.folder}/src/lib.rt", f"{SOURCE}\n#[cycle(turning)]\npub fn turned() {{\n    second();\n}}\n")
        self.put(f"{self.folder}/proofs/+turning/Answers.antt", "use Rattle.small.proofs.+turning.Goals as goal\n")
        self.mutant("a", "turned", "    second();", "    one();")
        self.in_no_cycle, self.says = self.says, self.in_a_cycle
        self.assertEqual(self.measured(), "a goals: returns; met: turns\n")
        self.assertEqual(self.said, "")

    def test_what_breaks_no_lemma(self):
        self.definition("b", "seven = 7", "seven = 8")
        self.assertEqual(self.measured(), "b breaks: @\n")
