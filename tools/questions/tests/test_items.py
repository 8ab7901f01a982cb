"""Tests of the lists, whose expected values are written by hand."""
import json
import unittest

from questions.document import Document
from questions.items import questions

BODY = ["skip fn 0", "container fn 0", "expansion_limit"]


def node(kind, **fields):
    return {"k": kind, **fields}


def path_expr(at, name):
    """A path expression of one name, whose first node has this index."""
    return [node("PathExpr", path=at + 1), node("Path", segs=[at + 2]), node("PathSegment", seg="name", name=name)]


class Lists(unittest.TestCase):
    def listed(self, nodes, mode="body", **members):
        return questions(Document(json.dumps({"nodes": nodes, **members})), mode)[0]

    def required(self, *args, **members):
        return [question for question, reason in self.listed(*args, **members).items() if reason is None]

    def left_out(self, *args, **members):
        return {question: reason for question, reason in self.listed(*args, **members).items() if reason}

    def of_body(self, *nodes, **members):
        """What the body asks that begins at node 1, beside what each body asks."""
        required = self.required([node("Fn", body=1), *nodes], **members)
        self.assertEqual(required[:3], BODY)
        return required[3:]

    def test_a_literal(self):
        self.assertEqual(self.of_body(node("Literal", lit="int", t="1")), ["cfg 0 1"])

    def test_a_node_with_another_number(self):
        self.assertEqual(self.of_body(node("Literal", lit="int", t="1", id=40)), ["cfg 0 40"])

    def test_a_disabled_part_asks_its_condition_alone(self):
        nodes = [node("ParenExpr", expr=2), *path_expr(2, "a")]
        self.assertEqual(self.of_body(*nodes, env={"disabled": [[0, 1, 5]]}), ["cfg 0 1"])

    def test_an_alias_is_looked_for_in_arguments_alone(self):
        nodes = [node("Fn", params=1, ret=5), node("ParamList", params=[2]), node("Param", ty=3), node("PathType", path=4),
                 node("Path", segs=[7]), node("RetType", ty=6), node("PathType", path=8),
                 node("PathSegment", seg="name", name="A", generics=10), node("Path", segs=[9]), node("PathSegment", seg="name", name="B"),
                 node("GenericArgList", args=[11]), node("LifetimeArg", lifetime="'a")]
        env = {"resolve": [[0, "A", ["alias", 3], None, None], [0, "B", ["alias", 4], None, None]]}
        asked = ["resolve 0 module plain A", "alias 3"]
        self.assertEqual(self.required(nodes, mode="fn", env=env), ["expansion_limit", "cfg 0 2", *asked])
        nodes[11] = node("LifetimeArg")
        self.assertEqual(self.left_out(nodes, mode="fn", env=env), dict.fromkeys(asked, "alias"))

    def test_a_call(self):
        nodes = [node("MacroExpr", call=2), node("MacroCall"), *path_expr(3, "a")]
        env = {"macros": [[0, 2, "file", 1, 3]]}
        self.assertEqual(self.of_body(*nodes, env=env), ["cfg 0 1", "expand 0 2 0 expr", "cfg 1 3", "hygiene 1 3"])
        self.assertEqual(self.of_body(*nodes, env={**env, "limit": 0}), ["cfg 0 1"])
        self.assertEqual(self.of_body(*nodes[:2], env={"macros": [[0, 2, "unresolved", "m"]]}), ["cfg 0 1", "expand 0 2 0 expr"])

    def test_what_is_in_a_block_asks_in_its_module(self):
        nodes = [node("BlockExpr", stmts=[2, 3], tail=4), node("MacroRules", name="m"), node("MacroRules", name="m"),
                 node("RangeExpr", start=5), node("Literal", lit="int", t="1")]
        self.assertEqual(self.of_body(*nodes, env={"blocks": [[0, 1, 3, 7]]}),
                         ["cfg 0 1", "block 0 1 0", "cfg 0 2", "legacy_macro 7 0 m", "cfg 0 3", "legacy_macro 7 1 m", "cfg 0 4",
                          "new_range 7", "lang_items", "cfg 0 5"])

    def test_an_assignment(self):
        nodes = [node("BinExpr", op="=", lhs=2, rhs=5), *path_expr(2, "a"), node("Literal", lit="int", t="1")]
        self.assertEqual(self.of_body(*nodes), ["cfg 0 1", "resolve 0 local plain a", "cfg 0 2", "hygiene 0 2", "cfg 0 5"])
        disabled = self.left_out([node("Fn", body=1), *nodes], env={"disabled": [[0, 2, 5]]})
        self.assertEqual(disabled, {"resolve 0 local plain a": "disabled", "hygiene 0 2": "disabled"})

    def test_bindings(self):
        pat = node("IdentPat", name="x")
        self.assertEqual(self.required([pat], mode="pat")[3:], ["cfg 0 4294967295", "resolve 0 other plain x", "hygiene 0 0"])
        self.assertEqual(self.required([{**pat, "mut": True}], mode="pat")[3:], ["cfg 0 4294967295", "hygiene 0 0"])
        self.assertEqual(self.required([node("IdentPat", name=1), node("Name", t="x")], mode="pat")[-1], "hygiene 0 1")

    def test_dollar_crate_and_names_that_stand_in_a_call(self):
        segment = node("PathSegment", seg="name", name="$crate")
        env = {"hygiene": [[0, 1, 4]], "contexts": [[4, 0, 4, 2, True, 9]]}
        self.assertEqual(self.required([node("Path", segs=[1]), segment], mode="path", env=env),
                         ["expansion_limit", "context 0 1", "crate_root 4"])
        own = node("PathSegment", seg="name", name="f")
        self.assertEqual(self.required([node("Path", segs=[1], in_macro=True), own], mode="path", env=env),
                         ["expansion_limit", "context 0 1", "outer_macro 4", "crate_root 4"])

    def test_a_jump_asks_all_contexts(self):
        listed = self.listed([node("Fn", body=1), node("BreakExpr", lifetime="'a")])
        self.assertEqual(listed["contexts"], "contexts")
        self.assertIsNone(listed["hygiene 0 1"])

    def test_what_is_not_read(self):
        nodes = [node("Fn", body=1, params=2), node("Literal", lit="int", t="1"), node("ParamList", params=[3]), node("Param")]
        self.assertEqual(self.left_out(nodes, owner="const"), {"cfg 0 3": "unread"})
        self.assertEqual(self.left_out(nodes, owner="const", skip=True), {"cfg 0 1": "skipped"})

    def test_items_that_are_lacking(self):
        nodes = [node("ForExpr", pat=2, body=3), node("WildcardPat"), node("BlockExpr")]
        self.assertEqual(self.of_body(*nodes), ["cfg 0 1", "lang_items", "cfg 0 3", "block 0 3 0"])
        self.assertEqual(self.of_body(*nodes, env={"lang": {"OptionNone": None}}), ["cfg 0 1", "lang_items"])


if __name__ == "__main__":
    unittest.main()
