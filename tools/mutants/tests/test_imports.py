"""Tests of imports.py."""
import unittest

from mutants.imports import without_names


class Imports(unittest.TestCase):
    def test_one_of_several(self):
        self.assertEqual(without_names("use crate::{one, second, Pair};\n", {"second"}), "use crate::{one, Pair};\n")
        self.assertEqual(without_names("use crate::{one as first, second};\n", {"one"}), "use crate::{second};\n")

    def test_the_last_one(self):
        self.assertEqual(without_names("use crate::one;\n", {"one"}), "")
        self.assertEqual(without_names("use crate::{a::{one}, b::two};\n", {"one"}), "use crate::{b::two};\n")
        self.assertEqual(without_names("use crate::{a::{one}};\n", {"one"}), "")

    def test_none(self):
        self.assertEqual(without_names("use crate::ones;\n", {"one"}), "use crate::ones;\n")
