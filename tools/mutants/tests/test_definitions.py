"""Tests of definitions.py."""
from mutants.definitions import Definitions, broken_theorems
from mutants.tests.small_crate import SmallCrate, read

REFUSED = "fn small::six_is_six: not proved\nproofs/six_is_six/Answers.antt:1:1: error: `returns`: `grind` fails\n"
LEMMA = "proofs/Lemmas.antt:{}:1: error: `{}`: not equal\n"


class MutantsInDefinitions(SmallCrate):
    def says(self, only, room):
        """What a check says: each number is another lemma's, and both are the theorem's."""
        numbers = read(f"{room}/specs/Numbers.antt")
        lemmas = "" if "six = 6" in numbers else LEMMA.format(2, "six_known")
        lemmas += "" if "seven = 7" in numbers else LEMMA.format(5, "seven_known")
        return lemmas + REFUSED if lemmas else "fn small::six_is_six: proved\n"

    def verdicts(self):
        self.made = crate = self.crate(self.says)
        Definitions(crate).try_all(crate.mutants)
        return {it.name: crate.verdict(it) for it in crate.mutants}

    def test_two_are_told_from_each_other_by_lemmas(self):
        self.definition("a", "six = 6", "six = 5", "breaks: six_is_six @Lemmas.six_known+1")
        self.definition("b", "seven = 7", "seven = 6", "breaks: six_is_six @Lemmas.seven_known+1")
        verdicts = self.verdicts()
        self.assertEqual(verdicts["a"], ("killed", "`six_known`: not equal"))
        self.assertEqual(verdicts["b"], ("killed", "`seven_known`: not equal"))
        self.assertEqual(self.made.checks, 1)

    def test_what_was_not_measured_is_tried_alone(self):
        self.definition("a", "six = 6", "six = 5")
        self.assertEqual(self.verdicts()["a"], ("killed", "`returns`: `grind` fails"))

    def test_a_copy_that_breaks_more_than_is_known_says_nothing(self):
        self.definition("a", "six = 6", "six = 5", "breaks: six_is_six @Lemmas.seven_known+1")
        self.assertEqual(self.verdicts()["a"][0], "killed")
        self.assertEqual(self.made.checks, 2)

    def test_in_a_shell_a_line_of_a_lemma_has_to_be_refused(self):
        self.definition("a", "six = 6", "six = 5", "breaks: six_is_six @Lemmas.six_known+1")
        self.says = lambda only, room: REFUSED
        self.assertEqual(self.verdicts()["a"][0], "killed")
        self.assertEqual(self.made.checks, 2)

    def test_one_that_breaks_nothing_survives(self):
        self.definition("a", "abbrev pub six : ℕ", "pub abbrev six : ℕ", "breaks: six_is_six @Lemmas.six_known+1")
        self.assertEqual(self.verdicts()["a"], ("survived", "what it is for is proved"))

    def test_theorems_of_units(self):
        self.definition("a", "six = 6", "six = 5", "breaks: m::t:clause six_is_six @Lemmas.six_known+1")
        self.assertIn("m::t", broken_theorems(self.crate().mutants))
