#!/usr/bin/env python3
"""Measures how much stack lowering takes a level, for each form that nests.

    bench/levels.py [--program PATH] [--form NAME] [--reading | --within KILOBYTES [--trees]]

A document holds one tree in which a form nests as deep as a tree may be, and at
the end a call of a macro that stands for another such tree, and so on. Of two
documents with more and fewer such trees the least limit of stack is sought under
which the program lowers them; what lies between, by the levels between, is what
a level takes. What reading takes doesn't count so: one tree is read at a time.

With --reading it is what reading takes: of two documents with one tree each, in
which the form nests on fewer and more levels. Reading takes more a level than
lowering, so the least limit of stack is the one under which they are read.

With --within nothing is measured. Of each form a tree of 256 levels, in which 64
calls of macros stand one in the other at the end, has to be lowered under that
limit of stack, and those are told that aren't. With --trees as well each of 64
calls stands for a tree of such levels, with the next call at its end.
"""

import argparse
import json
import os
import resource
import subprocess
import sys
from typing import Callable, NamedTuple

TOP = os.path.dirname(os.path.dirname(os.path.abspath(__file__)))
BUILT = os.path.join(TOP, "crates", "lower_tool", "out", "lower_tool")
# The levels that are nested in a tree: 256 without the function, the call with its node, and some room.
LEVELS = 250
# The levels that a tree may have, and how many calls may be entered one in the other.
MOST_LEVELS, MOST_CALLS = 256, 64
# So many trees that what is taken to read one of them is less.
FEW, MANY = 32, 64


def path(*names):
    return {"k": "Path", "segs": [{"k": "PathSegment", "seg": "name", "name": name} for name in names]}


def one_segment(**fields):
    return {"k": "Path", "segs": [{"k": "PathSegment", "seg": "name", "name": "A", **fields}]}


def generic(arg):
    """A path with an argument."""
    return one_segment(generics={"k": "GenericArgList", "args": [arg]})


def of_type(arg):
    """A path with a type as its argument."""
    return generic({"k": "TypeArg", "ty": arg})


def path_type(path_of):
    return {"k": "PathType", "path": path_of}


def qualified(**fields):
    return path_type({"k": "Path", "segs": [{"k": "PathSegment", "seg": "type", **fields}]})


def block(tail):
    return {"k": "BlockExpr", "tail": tail}


def record(value):
    field = {"k": "RecordExprField", "name": "f", "expr": value}
    return {"k": "RecordExpr", "path": path("A"), "list": {"k": "RecordExprFieldList", "fields": [field]}}


ONE = {"k": "Literal", "lit": "int", "t": "1"}
NAME = {"k": "IdentPat", "name": "x"}
WILD = {"k": "WildcardPat"}
PARAM = {"k": "Param", "pat": NAME}
ARM = {"k": "MatchArm", "pat": WILD, "expr": ONE}
TYPE = path_type(path("T"))

# Each form by the levels that it takes, and what it is around a part.
EXPRS = {
    "parentheses": (1, lambda e: {"k": "ParenExpr", "expr": e}),
    "block": (1, block),
    "unsafe block": (1, lambda e: {**block(e), "mod": "unsafe"}),
    "statement": (2, lambda e: {"k": "BlockExpr", "stmts": [{"k": "ExprStmt", "expr": e, "semi": True}]}),
    "let": (2, lambda e: {"k": "BlockExpr", "stmts": [{"k": "LetStmt", "pat": NAME, "init": e}]}),
    "let else": (
        4,
        lambda e: {
            "k": "BlockExpr",
            "stmts": [{"k": "LetStmt", "pat": NAME, "init": ONE, "else": {"k": "LetElse", "block": block(e)}}],
        },
    ),
    "const block": (1, lambda e: {**block(e), "mod": "const"}),
    "async block": (1, lambda e: {**block(e), "mod": "async"}),
    "gen block": (1, lambda e: {**block(e), "mod": "gen"}),
    "async gen block": (1, lambda e: {**block(e), "mod": "asyncgen"}),
    "try block": (1, lambda e: {**block(e), "mod": "try"}),
    "try block with a type": (1, lambda e: {**block(e), "mod": "try", "ty": TYPE}),
    "labelled block": (1, lambda e: {**block(e), "label": {"k": "Label", "lifetime": "'a"}}),
    "call": (1, lambda e: {"k": "CallExpr", "expr": ONE, "args": [e]}),
    "callee": (1, lambda e: {"k": "CallExpr", "expr": e, "args": []}),
    "method": (1, lambda e: {"k": "MethodCallExpr", "receiver": e, "name": "m"}),
    "argument of a method": (1, lambda e: {"k": "MethodCallExpr", "receiver": ONE, "name": "m", "args": [e]}),
    "constant of a method": (
        3,
        lambda e: {
            "k": "MethodCallExpr",
            "receiver": ONE,
            "name": "m",
            "generics": {"k": "GenericArgList", "args": [{"k": "ConstArg", "expr": e}]},
        },
    ),
    "field": (1, lambda e: {"k": "FieldExpr", "expr": e, "name": "f"}),
    "index": (1, lambda e: {"k": "IndexExpr", "base": ONE, "index": e}),
    "base of an index": (1, lambda e: {"k": "IndexExpr", "base": e, "index": ONE}),
    "match": (2, lambda e: {"k": "MatchExpr", "expr": ONE, "arms": [{"k": "MatchArm", "pat": WILD, "expr": e}]}),
    "head of a match": (1, lambda e: {"k": "MatchExpr", "expr": e, "arms": []}),
    "guard": (3, lambda e: {"k": "MatchExpr", "expr": ONE, "arms": [{**ARM, "guard": {"k": "Guard", "condition": e}}]}),
    "if": (2, lambda e: {"k": "IfExpr", "condition": ONE, "then": block(e)}),
    "else": (2, lambda e: {"k": "IfExpr", "condition": ONE, "then": block(ONE), "else": block(e)}),
    "else if": (
        3,
        lambda e: {"k": "IfExpr", "condition": ONE, "then": block(ONE), "else": {"k": "IfExpr", "condition": ONE, "then": block(e)}},
    ),
    "condition": (1, lambda e: {"k": "IfExpr", "condition": e, "then": block(ONE)}),
    "let as a condition": (1, lambda e: {"k": "LetExpr", "pat": WILD, "expr": e}),
    "loop": (2, lambda e: {"k": "LoopExpr", "body": block(e)}),
    "while": (2, lambda e: {"k": "WhileExpr", "condition": ONE, "body": block(e)}),
    "condition of a while": (1, lambda e: {"k": "WhileExpr", "condition": e, "body": block(ONE)}),
    "for": (2, lambda e: {"k": "ForExpr", "pat": NAME, "iterable": ONE, "body": block(e)}),
    "head of a for": (1, lambda e: {"k": "ForExpr", "pat": NAME, "iterable": e, "body": block(ONE)}),
    "question": (1, lambda e: {"k": "TryExpr", "expr": e}),
    "await": (1, lambda e: {"k": "AwaitExpr", "expr": e}),
    "closure": (1, lambda e: {"k": "ClosureExpr", "params": [PARAM], "body": e}),
    "async closure": (1, lambda e: {"k": "ClosureExpr", "async": True, "params": [PARAM], "body": e}),
    "prefix": (1, lambda e: {"k": "PrefixExpr", "op": "!", "expr": e}),
    "borrow": (1, lambda e: {"k": "RefExpr", "expr": e}),
    "operator": (1, lambda e: {"k": "BinExpr", "op": "+", "lhs": e, "rhs": ONE}),
    "right of an operator": (1, lambda e: {"k": "BinExpr", "op": "+", "lhs": ONE, "rhs": e}),
    "and": (1, lambda e: {"k": "BinExpr", "op": "&&", "lhs": ONE, "rhs": e}),
    "assignment": (1, lambda e: {"k": "BinExpr", "op": "=", "lhs": ONE, "rhs": e}),
    "range": (1, lambda e: {"k": "RangeExpr", "op": "..=", "start": ONE, "end": e}),
    "start of a range": (1, lambda e: {"k": "RangeExpr", "op": "..", "start": e}),
    "tuple": (1, lambda e: {"k": "TupleExpr", "fields": [e]}),
    "array": (1, lambda e: {"k": "ArrayExpr", "elems": [e]}),
    "length": (1, lambda e: {"k": "ArrayExpr", "semi": True, "init": ONE, "len": e}),
    "what is repeated": (1, lambda e: {"k": "ArrayExpr", "semi": True, "init": e, "len": ONE}),
    "return": (1, lambda e: {"k": "ReturnExpr", "expr": e}),
    "break": (1, lambda e: {"k": "BreakExpr", "expr": e}),
    "yield": (1, lambda e: {"k": "YieldExpr", "expr": e}),
    "yeet": (1, lambda e: {"k": "YeetExpr", "expr": e}),
    "become": (1, lambda e: {"k": "BecomeExpr", "expr": e}),
    "cast": (1, lambda e: {"k": "CastExpr", "expr": e, "ty": TYPE}),
    "record": (3, record),
    "rest of a record": (2, lambda e: {"k": "RecordExpr", "path": path("A"), "list": {"k": "RecordExprFieldList", "spread": e}}),
    "length of a type": (
        3,
        lambda e: {"k": "CastExpr", "expr": ONE, "ty": {"k": "ArrayType", "ty": TYPE, "len": {"k": "ConstArg", "expr": e}}},
    ),
    "constant argument": (5, lambda e: {"k": "PathExpr", "path": generic({"k": "ConstArg", "expr": e})}),
}
PATS = {
    "pattern in parentheses": (1, lambda p: {"k": "ParenPat", "pat": p}),
    "reference pattern": (1, lambda p: {"k": "RefPat", "pat": p}),
    "tuple pattern": (1, lambda p: {"k": "TuplePat", "fields": [p]}),
    "call pattern": (1, lambda p: {"k": "TupleStructPat", "path": path("A"), "fields": [p]}),
    "box pattern": (1, lambda p: {"k": "BoxPat", "pat": p}),
    "deref pattern": (1, lambda p: {"k": "DerefPat", "pat": p}),
    "slice pattern": (1, lambda p: {"k": "SlicePat", "prefix": [p]}),
    "middle of a slice": (1, lambda p: {"k": "SlicePat", "slice": p}),
    "end of a slice": (1, lambda p: {"k": "SlicePat", "suffix": [p]}),
    "or-pattern": (1, lambda p: {"k": "OrPat", "pats": [p, WILD]}),
    "binding": (1, lambda p: {**NAME, "pat": p}),
    "record pattern": (
        2,
        lambda p: {"k": "RecordPat", "path": path("A"), "fields": [{"k": "RecordPatField", "name": "f", "pat": p}]},
    ),
}
TARGETS = {
    "parentheses assigned to": (1, lambda t: {"k": "ParenExpr", "expr": t}),
    "tuple assigned to": (1, lambda t: {"k": "TupleExpr", "fields": [t]}),
    "array assigned to": (1, lambda t: {"k": "ArrayExpr", "elems": [t]}),
    "call of a path assigned to": (1, lambda t: {"k": "CallExpr", "expr": {"k": "PathExpr", "path": path("A")}, "args": [t]}),
    "record assigned to": (3, record),
}
TYPES = {
    "type in parentheses": (1, lambda t: {"k": "ParenType", "ty": t}),
    "pointer": (1, lambda t: {"k": "PtrType", "ty": t}),
    "reference": (1, lambda t: {"k": "RefType", "ty": t}),
    "tuple type": (1, lambda t: {"k": "TupleType", "fields": [t]}),
    "array type": (1, lambda t: {"k": "ArrayType", "ty": t, "len": {"k": "ConstArg", "expr": ONE}}),
    "function pointer": (2, lambda t: {"k": "FnPtrType", "params": [{"k": "Param", "ty": t}]}),
    "slice type": (1, lambda t: {"k": "SliceType", "ty": t}),
    "binder": (1, lambda t: {"k": "ForType", "ty": t}),
    "result of a pointer": (2, lambda t: {"k": "FnPtrType", "ret": {"k": "RetType", "ty": t}}),
    "pattern type": (1, lambda t: {"k": "PatternType", "ty": t, "pat": WILD}),
    "bound": (7, lambda t: {"k": "DynTraitType", "bounds": [{"k": "TypeBound", "b": "path", "ty": path_type(of_type(t))}]}),
    # An impl stands in another one under a binding alone.
    "impl": (
        7,
        lambda t: {
            "k": "ImplTraitType",
            "bounds": [{"k": "TypeBound", "b": "path", "ty": path_type(generic({"k": "AssocTypeArg", "name": "B", "ty": t}))}],
        },
    ),
    "argument of a path": (5, lambda t: path_type(of_type(t))),
    "binding of a path": (5, lambda t: path_type(generic({"k": "AssocTypeArg", "name": "B", "ty": t}))),
    "bound of a binding": (
        11,
        lambda t: path_type(
            generic(
                {"k": "AssocTypeArg", "name": "B", "bounds": [{"k": "TypeBound", "b": "path", "ty": path_type(of_type(t))}]},
            )
        ),
    ),
    "argument of a binding": (
        7,
        lambda t: path_type(
            generic({"k": "AssocTypeArg", "name": "B", "generics": {"k": "GenericArgList", "args": [{"k": "TypeArg", "ty": t}]}})
        ),
    ),
    "path directly in a call": (5, lambda t: path_type({**of_type(t), "in_macro": True})),
    "path of a use tree": (6, lambda t: path_type({**path("b"), "use": of_type(t)})),
    "argument of Fn": (5, lambda t: path_type(one_segment(parens={"k": "ParenArgs", "args": [{"k": "TypeArg", "ty": t}]}))),
    "result of Fn": (4, lambda t: path_type(one_segment(parens={"k": "ParenArgs", "args": []}, ret={"k": "RetType", "ty": t}))),
    "qualified path": (3, lambda t: qualified(ty=t)),
    "trait of a qualified path": (8, lambda t: qualified(ty=TYPE, trait=path_type(of_type(t)))),
}
# What a call stands for, which is another call. Of these a level is a call.
CALLS = {
    "call as a statement": (1, lambda c: {"k": "MacroStmts", "stmts": [{"k": "ExprStmt", "expr": c, "semi": True}]}),
    "call behind statements": (1, lambda c: {"k": "MacroStmts", "expr": c}),
}


class Sort(NamedTuple):
    """Forms that nest in one another."""

    forms: dict
    # The call that stands at the end, what stands there where there is none, and what the outermost tree stands in.
    call: dict
    leaf: dict
    whole: Callable
    # The levels that are nested in a tree.
    levels: int


def in_block(made):
    """A block with the statements that a call would stand for."""
    return {"k": "BlockExpr", "stmts": made.get("stmts", []), "tail": made.get("expr", ONE)}


def let(pat):
    return {"k": "LetExpr", "pat": pat, "expr": ONE}


def assigned(target):
    return {"k": "BinExpr", "op": "=", "lhs": target, "rhs": ONE}


def cast(ty):
    return {"k": "CastExpr", "expr": ONE, "ty": ty}


def itself(tree):
    return tree


def call_as(kind):
    return {"k": kind, "call": {"k": "MacroCall"}}


# A call behind parentheses is an expression, wherever they stand.
CALL = {"k": "ParenExpr", "expr": call_as("MacroExpr")}
UNDERSCORE = {"k": "UnderscoreExpr"}
SORTS = [
    Sort(EXPRS, CALL, ONE, itself, LEVELS),
    Sort(TARGETS, call_as("MacroExpr"), UNDERSCORE, assigned, LEVELS),
    Sort(PATS, call_as("MacroPat"), WILD, let, LEVELS),
    Sort(TYPES, call_as("MacroType"), TYPE, cast, LEVELS),
    Sort(CALLS, call_as("MacroExpr"), ONE, in_block, 1),
    Sort({"call as an expression": (1, itself)}, CALL, ONE, itself, 1),
    Sort({"call assigned to": (1, itself)}, call_as("MacroExpr"), UNDERSCORE, assigned, 1),
    Sort({"call as a pattern": (1, itself)}, call_as("MacroPat"), WILD, let, 1),
    Sort({"call as a type": (1, itself)}, call_as("MacroType"), TYPE, cast, 1),
]


class Document:
    def __init__(self):
        self.nodes = []

    def put(self, tree):
        """Adds a tree, each node in front of its parts, and answers its place."""
        here = len(self.nodes)
        self.nodes.append(node := {})
        for field, part in tree.items():
            if isinstance(part, dict):
                part = self.put(part)
            elif isinstance(part, list):
                part = [self.put(one) for one in part]
            node[field] = part
        return here


def nested(sort, form, trees):
    """A document with so many trees of the form, each called by the one before it, and how many levels they have."""
    levels, around = sort.forms[form]
    document, macros, called = Document(), [], None
    for number in range(trees):
        tree = sort.call if number + 1 < trees else sort.leaf
        for _ in range(sort.levels // levels):
            tree = around(tree)
        first = len(document.nodes)
        root = document.put(tree if number else {"k": "Fn", "body": sort.whole(tree)})
        if called is not None:
            macros.append([number - 1, called, "file", number, root])
        called = next((i for i in range(first, len(document.nodes)) if document.nodes[i]["k"] == "MacroCall"), None)
    text = json.dumps({"owner": "const", "nodes": document.nodes, "env": {"limit": 64, "macros": macros}})
    return text.encode(), trees * (sort.levels // levels) * levels


def depth(tree):
    """How many levels a tree has."""
    if isinstance(tree, list):
        return max(map(depth, tree), default=0)
    return 1 + max(map(depth, tree.values()), default=0) if isinstance(tree, dict) else 0


def read(sort, form, most):
    """A document with one tree of so many levels at most in which the form nests, and how many levels of it these are."""
    levels, around = sort.forms[form]
    tree, count = sort.leaf, 0
    while depth(sort.whole(around(tree))) < most:
        tree, count = around(tree), count + levels
    document = Document()
    document.put({"k": "Fn", "body": sort.whole(tree)})
    return json.dumps({"owner": "const", "nodes": document.nodes, "env": {}}).encode(), count


def deepest(sort, form):
    """A document with the form in as many levels as a tree may have, and at the end of it as many calls as may be entered."""
    around = sort.forms[form][1]
    is_call = sort.levels == 1
    tree = made = around(sort.call) if is_call else sort.call
    # The function is a level, too.
    while not is_call and depth(sort.whole(around(tree))) < MOST_LEVELS:
        tree = around(tree)
    body = sort.whole(tree)
    for _ in range(MOST_LEVELS - 1 - depth(body)):
        body = {"k": "ParenExpr", "expr": body}
    document, macros = Document(), []
    document.put({"k": "Fn", "body": body})
    for number in range(MOST_CALLS):
        called = next(i for i in reversed(range(len(document.nodes))) if document.nodes[i]["k"] == "MacroCall")
        root = document.put(made if number + 1 < MOST_CALLS else sort.leaf)
        macros.append([number, called, "file", number + 1, root])
    return json.dumps({"owner": "const", "nodes": document.nodes, "env": {"limit": MOST_CALLS, "macros": macros}}).encode()


def is_enough(program, document, kilobytes):
    """Whether the program lowers the document under the limit of stack, and enters each call of it."""
    # The hard limit too, since ./run raises the soft one as far as that.
    limit = (kilobytes << 10, kilobytes << 10)
    ran = subprocess.run(
        [program, "body"], input=document, capture_output=True, preexec_fn=lambda: resource.setrlimit(resource.RLIMIT_STACK, limit)
    )
    return ran.returncode == 0 and ran.stdout.count(b"\nexpansion ") == document.count(b'"MacroCall"')


def least(program, document):
    """The least limit in kilobytes, to a hundredth or to one."""
    low, high = 64, 128
    while not is_enough(program, document, high):
        low, high = high, 2 * high
        if high > 1 << 20:
            raise SystemExit("a document isn't lowered under any limit, or a call in it isn't entered")
    while high - low > max(1, high // 100):
        middle = (low + high) // 2
        if is_enough(program, document, middle):
            high = middle
        else:
            low = middle
    return high


def main():
    parser = argparse.ArgumentParser(description=__doc__, formatter_class=argparse.RawDescriptionHelpFormatter)
    parser.add_argument("--program", default=BUILT)
    parser.add_argument("--form", help="one form alone")
    parser.add_argument("--reading", action="store_true", help="what reading takes, not lowering")
    parser.add_argument("--within", type=int, help="try this limit of stack alone, in kilobytes")
    parser.add_argument("--trees", action="store_true", help="with --within: a tree for each call")
    options = parser.parse_args()
    # Trees are as deep as documents.
    sys.setrecursionlimit(100 * MOST_LEVELS)
    program = os.path.abspath(options.program)
    tried, failed = 0, 0
    for sort in SORTS:
        for form in sort.forms:
            # Reading goes through each tree by itself.
            if options.form not in (None, form) or (options.reading and sort.levels == 1):
                continue
            if options.within is not None:
                tried += 1
                document = nested(sort, form, MANY)[0] if options.trees else deepest(sort, form)
                if not is_enough(program, document, options.within):
                    failed += 1
                    levels = f"{MANY} trees of {LEVELS} levels" if options.trees else f"{MOST_LEVELS} levels"
                    print(f"FAILED {form}: {levels} aren't lowered in {options.within} kilobytes of stack")
                continue
            if options.reading:
                (few, few_levels), (many, many_levels) = (read(sort, form, most) for most in (LEVELS // 2, LEVELS))
            else:
                (few, few_levels), (many, many_levels) = (nested(sort, form, trees) for trees in (FEW, MANY))
            taken = (least(program, many) - least(program, few)) * 1024 / (many_levels - few_levels)
            print(f"{form:24} {taken:6.0f} bytes a level", flush=True)
    if options.within is not None:
        print(f"{tried} forms in {options.within} kilobytes of stack, {failed} of them not lowered")
        raise SystemExit(1 if failed else 0)


if __name__ == "__main__":
    main()
