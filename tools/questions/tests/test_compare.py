"""Tests of compare.py."""
import unittest

from questions.compare import compare

LISTED = {"cfg 0 1": None, "hygiene 0 2": None, "cfg 0 3": "disabled"}


class Comparisons(unittest.TestCase):
    def test_a_log_that_holds_all(self):
        comparison = compare(LISTED, (), ["hygiene 0 2", "cfg 0 1", "cfg 0 1"])
        self.assertTrue(comparison.is_right())
        self.assertEqual(comparison.required, {"cfg": 1, "hygiene": 1})
        self.assertEqual(comparison.left_out, {"disabled cfg": 1})

    def test_what_is_asked_although_it_is_to_be_left_out(self):
        self.assertEqual(compare(LISTED, (), ["cfg 0 1", "hygiene 0 2", "cfg 0 3"]).needless, ["cfg 0 3"])

    def test_a_forgotten_question(self):
        self.assertEqual(compare(LISTED, (), ["cfg 0 1"]).missing, ["hygiene 0 2"])

    def test_a_question_that_is_not_listed(self):
        self.assertEqual(compare(LISTED, (), ["cfg 0 1", "hygiene 0 2", "block 0 1 0"]).needless, ["block 0 1 0"])
        self.assertTrue(compare(LISTED, {"block 0 1 0"}, ["cfg 0 1", "hygiene 0 2", "block 0 1 0"]).is_right())

    def test_single_contexts_are_one_question(self):
        log = ["cfg 0 1", "hygiene 0 2", "opaque 4"]
        self.assertEqual(compare(LISTED, (), log).needless, ["opaque 4"])
        self.assertTrue(compare({**LISTED, "contexts": "contexts"}, (), log).is_right())


if __name__ == "__main__":
    unittest.main()
