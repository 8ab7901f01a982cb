"""Tests of bodies.py."""
from mutants.bodies import Bodies
from mutants.tests.small_crate import SOURCE, SmallCrate, read

REFUSED = "not proved: `search` did not prove `returns`; what else"


class MutantsInBodies(SmallCrate):
    def verdicts(self, says, **words):
        """Tries all mutants over what checks say of each function, and answers the words of the verdicts."""
        self.made = crate = self.crate(says, **words)
        Bodies(crate).try_all(crate.mutants)
        return {it.name: crate.verdict(it)[0] for it in crate.mutants}

    def test_in_one_copy_where_they_are_of_several_functions(self):
        self.mutant("a", "one", "    1", "    2")
        self.mutant("b", "second", "one() + 1", "one() + 2")
        says = lambda only, room: "".join(f"fn small::{it}: {REFUSED}\n" for it in only)
        self.assertEqual(self.verdicts(says, has_shells=False), {"a": "killed", "b": "killed"})
        self.assertEqual(self.made.bench.asked, [["one", "second"]])

    def test_two_of_one_function_take_two_copies(self):
        self.mutant("a", "one", "    1", "    2")
        self.mutant("b", "one", "    1", "    3")
        says = lambda only, room: f"fn small::one: {REFUSED if '    2' in read(f'{room}/src/lib.rt') else 'proved'}\n"
        self.assertEqual(self.verdicts(says, has_shells=False), {"a": "killed", "b": "survived"})

    def test_so_do_two_of_different_lines(self):
        self.put(f"{self.folder}/src/lib.rt", SOURCE.replace("    one() + 1", "    let one = one();\n    one + 1"))
        self.mutant("a", "second", "let one = one();", "let one = 0;")
        self.mutant("b", "second", "    one + 1", "    one + 2")
        says = lambda only, room: f"fn small::second: {REFUSED if '= 0' in read(f'{room}/src/lib.rt') else 'proved'}\n"
        self.assertEqual(self.verdicts(says, has_shells=False), {"a": "killed", "b": "survived"})

    def test_what_waits_for_a_callee_is_tried_again(self):
        self.mutant("a", "one", "    1", "    2")
        self.mutant("b", "second", "one() + 1", "one() + 2")
        calls = "not checked: it calls `one`"
        says = lambda only, room: f"fn small::one: {REFUSED}\nfn small::second: {calls if 'one' in only else REFUSED}\n"
        self.assertEqual(self.verdicts(says, has_shells=False), {"a": "killed", "b": "killed"})
        self.assertEqual(self.made.bench.asked, [["one", "second"], ["second"]])

    def test_one_that_does_not_compile_takes_no_other_down(self):
        self.mutant("a", "one", "    1", "    none")
        self.mutant("b", "second", "one() + 1", "one() + 2")
        error = "src/lib.rt:7:5: error[unknown-name]: none\n"
        says = lambda only, room: error if "    none" in read(f"{room}/src/lib.rt") else f"fn small::second: {REFUSED}\n"
        self.assertEqual(self.verdicts(says, has_shells=False), {"a": "unread", "b": "killed"})

    def test_known_goals_are_tried_in_a_shell(self):
        self.mutant("a", "second", "one() + 1", "one() + 2", measured="goals: returns")
        says = lambda only, room: "".join(f"fn small::{it}: {REFUSED}\n" for it in only)
        self.assertEqual(self.verdicts(says), {"a": "killed"})
        self.assertEqual(self.made.bench.asked, [["second_mutant0"]])

    def test_another_goal_than_was_measured_tells_nothing(self):
        self.mutant("a", "second", "one() + 1", "one() + 2", measured="goals: other")
        says = lambda only, room: "".join(f"fn small::{it}: {'proved' if it == 'second_mutantless' else REFUSED}\n" for it in only)
        self.assertEqual(self.verdicts(says), {"a": "killed"})
        self.assertEqual(self.made.bench.asked, [["second_mutant0"], ["second_mutantless", "second_mutant0"]])
        self.assertIn("a isn't refused at its first goal alone", self.made.notes[0])

    def test_a_shell_does_not_count_where_its_control_is_refused(self):
        self.mutant("a", "second", "one() + 1", "1 + one()", measured="goals: other")
        says = lambda only, room: "".join(f"fn small::{it}: {'proved' if it == 'second' else REFUSED}\n" for it in only)
        self.assertEqual(self.verdicts(says), {"a": "survived"})
        self.assertEqual(self.made.bench.asked[-1], ["second"])
