"""Tests of mutant.py."""
from mutants.tests.small_crate import SmallCrate


class Mutants(SmallCrate):
    def only(self):
        return self.crate().mutants[0]

    def test_what_its_file_says(self):
        self.mutant("adds_two", "second", "one() + 1", "one() + 2", measured="goals: returns; met: other")
        mutant = self.only()
        self.assertEqual((mutant.name, mutant.unit(), mutant.wrong), ("adds_two", "second", ""))
        self.assertEqual(mutant.pairs, [("src/lib.rt", "one() + 1", "one() + 2")])
        self.assertEqual((mutant.goals, mutant.met, mutant.breaks), (["returns"], ["other"], []))
        self.assertEqual((mutant.twin, mutant.proof_of(mutant.twin), mutant.proof), ("_mutant0", "second_mutant0", "second"))

    def test_further_pairs_and_a_clause(self):
        self.put(f"{self.folder}/mutants/a.edit",
                 "function: six_is_six\nclause: all\nfile: specs/Numbers.antt\nold: six = 6\nnew: six = 5\n"
                                                  "old: seven = 7\nnew: seven = 6\n")
        mutant = self.only()
        self.assertEqual((mutant.unit(), len(mutant.pairs), mutant.is_definition()), ("six_is_six:all", 2, True))

    def test_what_is_measured_stands_elsewhere(self):
        self.put(f"{self.folder}/mutants/a.edit", "function: one\ngoals: returns\nfile: src/lib.rt\nold:     1\nnew:     2\n")
        self.assertEqual(self.only().wrong, "this line is not read: goals: returns")

    def test_what_lacks(self):
        self.put(f"{self.folder}/mutants/a.edit", "function: one\n")
        self.assertIn("no line `function:`, or no pair", self.only().wrong)

    def test_it_has_to_break_what_it_is_for(self):
        self.definition("a", "six = 6", "six = 5", "breaks: other @")
        self.assertEqual(self.only().wrong, "what it is for, six_is_six, is not among what it breaks")

    def test_it_stands_in_the_body_of_its_function(self):
        self.mutant("a", "one", "one() + 1", "one() + 2")
        self.assertEqual(self.only().wrong, "it stands in `second`, which `function:` doesn't name")
        self.mutant("a", "second", "result ≡ 2", "result ≡ 3")
        self.assertEqual(self.only().wrong, "it stands in a clause or behind the body, and not in it")

    def test_what_it_is_for_is_a_function_of_the_crate(self):
        self.put(f"{self.folder}/src/inner.rt", "pub fn third() -> u8\n    ensures { result ≡ 3 }\n{\n    3\n}\n")
        self.mutant("a", "inner::third", "    3", "    4", "src/inner.rt")
        self.assertEqual(self.only().wrong, "")
        for name in ("third", "other::third", "inner::third::third", "inner::fourth"):
            self.mutant("a", name, "    3", "    4", "src/inner.rt")
            self.assertEqual(self.only().wrong, f"no function of its crate is called `{name}`")
        self.mutant("a", "six_is_seven", "six = 6", "six = 7", "specs/Numbers.antt")
        self.assertEqual(self.only().wrong, "no function of its crate is called `six_is_seven`")

    def test_its_control_has_nothing_wrong(self):
        self.mutant("a", "second", "one() + 1", "one() + 2", measured="goals: returns")
        control = self.only().control()
        self.assertEqual((control.pairs, control.goals, control.twin, control.function), ([], [], "_mutantless", "second"))

    def test_what_tells_of_it_in_a_copy(self):
        self.definition("a", "six = 6", "six = 5", "breaks: six_is_six @Lemmas.six_known+1")
        self.definition("b", "seven = 7", "seven = 6", "breaks: six_is_six @Lemmas.seven_known+1")
        self.definition("c", "seven = 7", "seven = 5", "breaks: six_is_six @")
        one, other, third = self.crate().mutants
        self.assertEqual(one.signs([one]), {"six_is_six"})
        self.assertEqual(one.signs([one, other]), {"@Lemmas.six_known+1"})
        self.assertEqual(one.signs([one], is_shell=True), {"@Lemmas.six_known+1"})
        self.assertEqual(third.signs([one, third]), set())
        other.breaks.append("@Lemmas.six_known+1")
        self.assertEqual(one.signs([one, other]), set())
