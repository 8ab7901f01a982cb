"""Tests of check_output.py, over words of checks."""
from mutants.check_output import (
    KILLED, SURVIVED, UNREAD, WAITS, broken_lemmas, broken_units, failure, lacks_goal, refused_goals, verdict_of)
from mutants.tests.small_crate import SmallCrate

SEARCHED = "fn small::one: not proved: `search` did not prove `returns` and 2 more; so it is not\n"


class CheckOutput(SmallCrate):
    def verdict(self, said):
        return verdict_of("small", "one", "one", said)

    def test_verdicts(self):
        self.assertEqual(self.verdict("fn small::one: proved\n"), (SURVIVED, "proved"))
        self.assertEqual(self.verdict(SEARCHED), (KILLED, "`search` did not prove `returns` and 2 more"))
        self.assertEqual(self.verdict("fn small::one: not checked: it calls `two`\n")[0], WAITS)
        self.assertEqual(self.verdict("fn small::ones: proved\n"), (UNREAD, "nothing is said of it"))

    def test_a_hole_of_a_shell_is_met(self):
        self.assertEqual(self.verdict("fn small::one: no holes\n")[0], SURVIVED)
        self.assertEqual(self.verdict("fn small::one: depends on a hole in `Rattle.small.proofs.TakenAsMet.taken_as_met`\n")[0], SURVIVED)

    def test_answers_that_no_longer_fit(self):
        error = "proofs/one/Answers.antt:3:1: error: `returns`: not equal\n"
        self.assertEqual(self.verdict("fn small::one: not proved\n" + error), (KILLED, "an answer no longer fits: `returns`: not equal"))
        self.assertEqual(self.verdict("fn small::one: not proved\n" + error.replace("not equal", "`x` is not in scope"))[0], UNREAD)

    def test_refused_goals(self):
        self.assertEqual(refused_goals("small", "one", "one", SEARCHED), ["returns", "+2"])
        lacks = "fn small::one: not proved\nproofs/one/Answers.antt:3:1: error: `other`: `goal.other`: module `m`\n"
        self.assertEqual(refused_goals("small", "one", "one", lacks), [])
        self.assertTrue(lacks_goal("small", "one", "one", lacks, ["other"]))
        self.assertFalse(lacks_goal("small", "one", "one", lacks, ["returns"]))

    def test_what_a_theorem_has_broken(self):
        said = "fn small::t: not proved\nproofs/t/Answers.antt:3:1: error: `returns-clause-left`: `grind` fails\n"
        self.assertEqual(broken_units("small", "t", said), {"t:left": "`returns-clause-left`: `grind` fails"})
        self.assertEqual(broken_units("small", "t", said.replace("-clause-left", "")), {"t": "`returns`: `grind` fails"})
        self.assertEqual(broken_units("small", "t", "fn small::t: proved\n"), {})
        self.assertEqual(broken_units("small", "t", ""), {"t?": "nothing is said of it"})

    def test_lines_of_lemmas(self):
        said = "proofs/Lemmas.antt:5:3: error: `seven_known`: not equal\nproofs/one/Answers.antt:1:1: error: `returns`: not equal\n"
        self.assertEqual(broken_lemmas(self.folder, said), {"@Lemmas.seven_known+1": "`seven_known`: not equal"})
        self.assertEqual(broken_lemmas(self.folder, said.replace("not equal", "`six` is not in scope")), {})

    def test_what_cannot_be_read(self):
        self.assertEqual(failure("only=3 proved=2"), "")
        self.assertIn("did not end", failure("fn small::one: proved"))
        self.assertIn("unknown-name", failure("src/lib.rt:1:1: error[unknown-name]: x\nonly=3 proved=2"))
