"""Tests of report.py."""
import contextlib
import io

from mutants.report import report, report_wrong
from mutants.tests.small_crate import SmallCrate


class Report(SmallCrate):
    def reported(self, what, crate):
        with contextlib.redirect_stdout(io.StringIO()) as said:
            status = what([crate])
        return status, said.getvalue().splitlines()

    def test_what_survived_is_listed_above_the_last_line(self):
        for name, new in {"a": "2", "b": "3", "c": "4"}.items():
            self.mutant(name, "one", "    1", f"    {new}")
        crate = self.crate()
        one, other, _ = crate.mutants
        crate.verdicts = {one: ("killed", "an answer no longer fits: x"), other: ("survived", "proved")}
        crate.notes.append("a note")
        status, lines = self.reported(report, crate)
        self.assertEqual(status, 1)
        self.assertEqual(lines, [
            "mutants: small/a: killed: an answer no longer fits: x",
            "mutants: small/b: survived: proved",
            "mutants: small/c: survived: nothing was tried for it",
            "mutants: small: a note",
            "mutants: CPU minutes: small 0.0 (3 in 0 checks); 0.0 in all",
            "mutants: 1 are killed since an answer no longer fits",
            "survived: small/b: proved",
            "survived: small/c: nothing was tried for it",
            "1 mutants killed, 2 not; 3 were tried now, 0 earlier on this machine",
        ])

    def test_all_are_killed(self):
        self.mutant("a", "one", "    1", "    2")
        crate = self.crate()
        crate.verdicts = {crate.mutants[0]: ("killed", "why")}
        status, lines = self.reported(report, crate)
        self.assertEqual((status, lines[-1]), (0, "1 mutants killed, 0 not; 1 were tried now, 0 earlier on this machine"))

    def test_none_are_no_success(self):
        self.assertEqual(self.reported(report, self.crate())[0], 1)

    def test_what_cannot_be_tried(self):
        self.mutant("a", "one", "not there", "x", measured="goals: returns")
        self.put(f"{self.folder}/mutants/measured.txt", "gone goals: returns\n")
        status, lines = self.reported(report_wrong, self.crate())
        self.assertEqual((status, len(lines)), (1, 2))
        self.assertTrue(lines[0].startswith("mutants: small/a: this stands in src/lib.rt 0 times"))
        self.assertIn("measured.txt has no mutant", lines[1])
