"""Tests of paths.py and of the paths in document.py."""
import unittest

from questions.document import MISSING, ModPath, parsed_path
from questions.paths import crate_kind, mod_path

PLAIN = ("plain",)


def named(*names):
    return [("named", name) for name in names]


class ReadPaths(unittest.TestCase):
    def test_names_in_their_order(self):
        self.assertEqual(mod_path([(False, named("a", "b"))]), ModPath(PLAIN, ("a", "b")))

    def test_where_a_path_begins(self):
        self.assertEqual(mod_path([(True, named("a"))]), ModPath(("abs",), ("a",)))
        self.assertEqual(mod_path([(False, [("self",), *named("a")])]), ModPath(("super", 0), ("a",)))
        self.assertEqual(mod_path([(False, [("self",)])]), ModPath(("super", 0), ()))
        self.assertEqual(mod_path([(False, [("super",), ("super",), *named("a")])]), ModPath(("super", 2), ("a",)))
        self.assertEqual(mod_path([(False, [("self",), ("super",), *named("a")])]), ModPath(("super", 1), ("a",)))
        self.assertEqual(mod_path([(False, [("root", crate_kind(None)), *named("a")])]), ModPath(("crate",), ("a",)))
        self.assertEqual(mod_path([(False, [("root", crate_kind(7)), *named("a")])]), ModPath(("dollar", 7), ("a",)))

    def test_segments_that_may_only_stand_first(self):
        for piece in (("self",), ("root", ("crate",)), ("anchor",), ("refusing",)):
            self.assertIsNone(mod_path([(False, [*named("a"), piece])]), piece)

    def test_a_qualified_type(self):
        self.assertEqual(mod_path([(False, [("anchor",), *named("a")])]), ModPath(PLAIN, ("a",)))
        self.assertEqual(mod_path([(False, [("anchor",)])]), ModPath(PLAIN, ()))
        trait = ModPath(("crate",), ("T",))
        self.assertEqual(mod_path([(False, [("trait", trait), *named("a")])]), ModPath(("crate",), ("T", "a")))
        self.assertIsNone(mod_path([(False, [("trait", None), *named("a")])]))
        self.assertIsNone(mod_path([(False, [("trait", ModPath(PLAIN, ())), *named("a")])]))

    def test_use_trees_stand_in_front(self):
        self.assertEqual(mod_path([(False, named("b")), (True, named("a"))]), ModPath(("abs",), ("a", "b")))
        self.assertEqual(mod_path([(False, [("root", ("crate",)), *named("b")]), (False, named("a"))]), ModPath(("crate",), ("b",)))


class TextsOfPaths(unittest.TestCase):
    def test_texts_of_tables(self):
        for text, path in (("a::b", ModPath(PLAIN, ("a", "b"))), ("::a", ModPath(("abs",), ("a",))),
                           ("self::a", ModPath(("super", 0), ("a",))), ("super::super::a", ModPath(("super", 2), ("a",))),
                           ("super", ModPath(("super", 1), ())), ("crate::a", ModPath(("crate",), ("a",))),
                           ("$crate(12)::a", ModPath(("dollar", 12), ("a",))), ("?", ModPath(PLAIN, (MISSING,)))):
            self.assertEqual(parsed_path(text), path)

    def test_lines(self):
        self.assertEqual(ModPath(("super", 1), ("a", MISSING)).text(), "super 1 a::?")
        self.assertEqual(ModPath(PLAIN, ("a",)).text(), "plain a")


if __name__ == "__main__":
    unittest.main()
