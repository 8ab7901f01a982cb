"""Tests of proof_texts.py."""
import unittest

from mutants.proof_texts import met_proof, of_member, of_twin, with_goals_met

ANSWERS = """use Rattle.small.proofs.+turning.Goals as goal

pub left-returns : goal.left-returns
left-returns t c = refl

pub left-right-requires : goal.left-right-requires
left-right-requires t c = c.decreases

abbrev pub decreases-left : goal.decreases-left
decreases-left l = l.number

pub right-returns : goal.right-returns
right-returns t c = refl
"""


class ProofTexts(unittest.TestCase):
    def test_a_function_that_is_taken_as_met(self):
        text = met_proof("small", ["inner", "one"])
        self.assertIn("use Rattle.small.proofs.inner.one.Statement.{statement}\n", text)
        self.assertTrue(text.endswith("one_spec = taken_as_met\n"))

    def test_goals_that_are_taken_as_met(self):
        answers = "pub returns : goal.returns\nreturns c = wrong\n\npub other : goal.other\nother c = kept\n"
        text = with_goals_met(answers, "small", "a/b", ["returns"])
        self.assertNotIn("wrong", text)
        self.assertIn("other c = kept\n", text)
        self.assertTrue(text.startswith("use Rattle.small.proofs.TakenAsMet.{taken_as_met}\nuse Rattle.small.proofs.a.b.Goals as goal\n"))
        self.assertTrue(text.endswith("pub returns : goal.returns\nreturns = taken_as_met\n"))

    def test_a_twin_names_its_own_goals(self):
        text = "use Rattle.small.proofs.a.one.Goals as goal\nuse Rattle.small.proofs.a.ones.Goals as other\n"
        self.assertEqual(of_twin(text, "small", "a::one", "a/one", "_mutant1"), text.replace("a.one.", "a.one_mutant1."))
        text = "use Rattle.small.proofs.a.+turning.Goals as goal\n"
        self.assertEqual(of_twin(text, "small", "a::one", "a/+turning", "_mutant1"), text.replace("+turning", "one_mutant1"))

    def test_what_of_a_cycle_is_about_a_member(self):
        text = of_member(ANSWERS, "left", "left-")
        self.assertIn("pub returns : goal.returns\nreturns c = refl\n", text)
        for gone in ("right", "decreases-left", "c.decreases"):
            self.assertNotIn(gone, text)
        alone = of_member(ANSWERS, "left", "")
        self.assertNotIn("decreases-left", alone)
        self.assertIn("left-returns c = refl", alone)
