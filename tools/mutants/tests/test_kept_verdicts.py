"""Tests of kept_verdicts.py."""
import os

from mutants.kept_verdicts import DAYS, KeptVerdicts
from mutants.tests.small_crate import SmallCrate


class Kept(SmallCrate):
    def setUp(self):
        super().setUp()
        self.mutant("a", "one", "    1", "    2", measured="goals: returns")

    def told(self, is_anew=False):
        """What is kept of the only mutant, as it is now."""
        kept = KeptVerdicts(self.kit, is_anew)
        return kept.reason(kept.crate_sum(self.folder, []), self.crate().mutants[0])

    def keep(self):
        kept = KeptVerdicts(self.kit, False)
        kept.keep(kept.crate_sum(self.folder, []), self.crate().mutants[0], "why")

    def test_it_is_kept(self):
        self.assertEqual(self.told(), "")
        self.keep()
        self.assertEqual(self.told(), "why")
        self.assertEqual(self.told(is_anew=True), "")

    def test_it_goes_with_what_it_stands_on(self):
        for path, text in {f"{self.folder}/specs/Numbers.antt": "", f"{self.kit}/bin/rattle": "new",
                           f"{self.folder}/mutants/measured.txt": "a goals: other\n"}.items():
            self.keep()
            self.put(path, text)
            self.assertEqual(self.told(), "", path)
        self.keep()
        self.mutant("a", "one", "    1", "    3")
        self.assertEqual(self.told(), "")

    def test_what_was_measured_of_others_does_not_count(self):
        self.keep()
        self.mutant("b", "one", "    1", "    3", measured="goals: returns")
        self.assertEqual(self.told(), "why")

    def test_it_goes_where_no_run_asks_for_it(self):
        self.keep()
        folder = KeptVerdicts(self.kit, False).folder
        for name in os.listdir(folder):
            os.utime(f"{folder}/{name}", (0, 0))
        self.assertGreater(DAYS, 1)
        self.assertEqual(self.told(), "")
