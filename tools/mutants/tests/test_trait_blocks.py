"""Tests of trait_blocks.py."""
import unittest

from mutants.trait_blocks import is_emptied, types_in, without_blocks

EMPTIED = "impl Counted for Spare {\n    fn count(&self) -> u8 {\n        loop {}\n    }\n}\n"
FULL = EMPTIED.replace("loop {}", "1")


class TraitBlocks(unittest.TestCase):
    def test_which_blocks_have_no_bodies(self):
        self.assertTrue(is_emptied(EMPTIED))
        self.assertFalse(is_emptied(FULL))

    def test_blocks_go_for_types_that_nothing_names(self):
        self.assertEqual(without_blocks({"lib.rt": f"pub struct Spare;\n{EMPTIED}"}), {"lib.rt": "pub struct Spare;\n"})

    def test_blocks_stay_for_types_that_are_named_or_have_bodies(self):
        for text in (f"pub struct Spare;\n{EMPTIED}const IT: Spare = Spare;\n", f"pub struct Spare;\n{FULL}"):
            self.assertEqual(without_blocks({"lib.rt": text}), {"lib.rt": text})

    def test_types_that_blocks_hold(self):
        block = "impl Counted for Pair {\n    type Item = Held;\n}\n"
        self.assertEqual(types_in(["a Pair"], {"lib.rt": block}), {"Pair", "Held"})
        self.assertEqual(types_in(["an Other"], {"lib.rt": block}), {"Other"})
