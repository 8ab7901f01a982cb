"""Tests of measured.py."""
from mutants.measured import Measured, line_of, words_of
from mutants.tests.small_crate import SmallCrate, read


class MeasuredData(SmallCrate):
    def measured(self):
        return Measured(f"{self.folder}/mutants")

    def test_a_line_there_and_back(self):
        for words in ({"goals": ["returns", "+3"], "met": ["a-b"]}, {"breaks": ["m::t", "m::t:clause", "@A.b+1"]}):
            self.assertEqual(words_of(line_of("name", words)), ("name", words))
        self.assertEqual(line_of("name", {"goals": []}), "")

    def test_lines_that_cannot_be_read(self):
        for line in ("", "name", "name goals:", "name goals: a  b", "name other: a", "name goals: a; goals: b", " goals: a"):
            self.assertIsNone(words_of(line), line)

    def test_nothing_was_measured(self):
        self.assertEqual((self.measured().words("a", "goals"), self.measured().line("a"), self.measured().wrong), ([], "", []))

    def test_it_is_written_sorted_a_line_for_each(self):
        for name in "bac":
            self.mutant(name, "one", "    1\n", "    2\n")
        measured = self.measured()
        measured.put("b", goals=["returns"], met=[])
        measured.put("a", breaks=["t", "@"])
        measured.put("b", met=["other"])
        measured.put("c", goals=[])
        self.assertEqual(read(measured.path), "a breaks: t @\nb goals: returns; met: other\n")
        self.assertEqual(self.measured().all, {"a": {"breaks": ["t", "@"]}, "b": {"goals": ["returns"], "met": ["other"]}})
        self.assertEqual(self.measured().wrong, [])

    def test_lines_without_mutant_are_told_and_go(self):
        self.mutant("a", "one", "    1\n", "    2\n", measured="goals: returns")
        self.put(f"{self.folder}/mutants/measured.txt", "a goals: returns\na goals: more\ngone goals: x\nunread\n")
        measured = self.measured()
        self.assertEqual(len(measured.wrong), 3)
        measured.put("a", goals=["other"])
        self.assertEqual(read(measured.path), "a goals: other\n")
