"""Tests of edits.py."""
from types import SimpleNamespace

from mutants.edits import changed_files, changed_text
from mutants.tests.small_crate import SOURCE, SmallCrate


def edit(*pairs):
    return SimpleNamespace(pairs=[*pairs])


class Edits(SmallCrate):
    def test_pairs_apply_one_behind_another(self):
        self.assertEqual(changed_text([("f", "a", "bc"), ("f", "c", "d")], "xa"), "xbd")

    def test_what_stands_twice_or_nowhere_is_not_changed(self):
        self.assertEqual(changed_text([("f", "a", "b")], "aa"), "")
        self.assertEqual(changed_text([("f", "a", "b")], "x"), "")

    def test_mutants_share_a_file(self):
        both = [edit(("src/lib.rt", "one() + 1", "one() + 2")), edit(("src/lib.rt", "    1\n", "    2\n"))]
        texts, wrong = changed_files(both, self.folder)
        self.assertEqual(wrong, "")
        self.assertEqual(texts["src/lib.rt"], SOURCE.replace("one() + 1", "one() + 2").replace("    1\n", "    2\n"))

    def test_why_one_does_not_apply(self):
        self.assertIn("no file src/other.rt", changed_files([edit(("src/other.rt", "a", "b"))], self.folder)[1])
        self.assertIn("below src/ or specs/", changed_files([edit(("proofs/Lemmas.antt", "refl", "x"))], self.folder)[1])
        self.assertIn("2 times", changed_files([edit(("specs/Numbers.antt", "abbrev", "x"))], self.folder)[1])
        self.assertIn("0 times", changed_files([edit(("specs/Numbers.antt", "", "x"))], self.folder)[1])
