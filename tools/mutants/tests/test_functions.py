"""Tests of functions.py."""
from mutants.functions import Functions, module_path, types_for, without_generics
from mutants.tests.small_crate import SmallCrate

BLOCKS = """//! Methods.

pub struct Pair {
    left: u8,
}

impl Pair {
    /// A method
    /// with a comment.
    #[cycle(going)]
    pub fn go<T>(&self) -> u8
        requires { self.left ≤ 1 }
    {
        match self.left {
            _ => one(),
        }
    }
}

impl<T> Other<T> for Pair {
    fn other(&self) -> u8 {
        second()
    }
}

const fn fixed() -> u8 {
    3
}

fn without_body() {}

#[unsafe(no_mangle)]
pub extern "C" fn exported() -> u8 {
    fixed()
}
"""


class CrateFunctions(SmallCrate):
    def functions(self):
        self.put(f"{self.folder}/src/inner/pairs.rt", BLOCKS)
        return {it.word: it for it in self.all_functions().all}

    def all_functions(self):
        return Functions(self.folder)

    def test_bodies(self):
        functions = self.functions()
        self.assertEqual(functions["second"].body, "    one() + 1\n")
        self.assertIn("_ => one()", functions["go"].body)
        self.assertEqual(functions["without_body"].body, "")

    def test_names_and_proofs(self):
        functions = self.functions()
        self.assertEqual((functions["second"].name, functions["second"].proof), ("second", "second"))
        self.assertEqual((functions["go"].name, functions["go"].proof), ("inner::pairs::Pair::go", "inner/pairs/Pair/+going"))
        self.assertEqual((functions["other"].name, functions["other"].types()), ("", {"Pair"}))
        self.assertEqual(functions["exported"].name, "inner::pairs::exported")

    def test_what_a_check_may_call_one(self):
        self.functions()
        whole = self.all_functions()
        called = {it: [of.word for of in whole.called(it)] for it in (
            "second", "inner::second", "inner::pairs::Pair::go", "inner::pairs::go",
            "inner::pairs::PairOther::other", "inner::PairOther::other", "other",
        )}
        known = {it for it, found in called.items() if found}
        self.assertEqual(known, {"second", "inner::pairs::Pair::go", "inner::pairs::PairOther::other"})

    def test_what_can_be_emptied(self):
        can = {word for word, it in self.functions().items() if it.can_be_emptied()}
        self.assertEqual(can, {"one", "second", "go", "exported"})

    def test_where_the_text_of_one_begins(self):
        function = self.functions()["second"]
        text = self.all_functions().texts["lib.rt"]
        self.assertTrue(text[function.start : function.close].startswith("/// The second one.\npub fn second"))
        self.assertTrue(text[function.start : function.close].endswith("one() + 1\n}\n"))

    def test_which_may_be_called(self):
        functions, whole = self.functions(), self.all_functions()
        second = next(it for it in whole.all if it.word == "second")
        self.assertEqual({it.word for it in whole.reachable({second})}, {"second", "one"})
        self.assertEqual(whole.before("lib.rt", whole.texts["lib.rt"].index("one() + 1")).word, "second")
        self.assertIsNone(whole.before("lib.rt", 0))
        self.assertIn("go", functions)

    def test_paths_and_types(self):
        self.assertEqual((module_path("lib.rt"), module_path("a/b.rt")), ([], ["a", "b"]))
        self.assertEqual(without_generics("impl<A<B>> Pair<C>"), "impl Pair")
        self.assertEqual(types_for("impl A for Pair<Left> where B: C {"), {"Pair", "Left"})
