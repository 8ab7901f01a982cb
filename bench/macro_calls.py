"""Shapes with calls and definitions of macros."""
from nodes import ENTERED, NAMES, Nodes, body, shape


def expanded(nodes, place, root, file=0, **fields):
    """Adds a call of a macro, as a node of that kind in a file, and behind it the node of the other kind that it stands for in file 1."""
    here = nodes.add(place)
    call = nodes.child(here, "call", "MacroCall")
    nodes.env.setdefault("macros", []).append([file, call, "file", 1, nodes.add(root, **fields)])
    return here


@shape()
def expansions(size):
    """One array of very many calls of macros, each expanded to a literal, 33,000 of them at 100,000 nodes."""
    nodes = Nodes()
    nodes.add("Fn", body=1)
    elements = nodes.add("ArrayExpr", elems=[])
    while len(nodes.all) + 3 <= size:
        nodes.all[elements]["elems"].append(expanded(nodes, "MacroExpr", "Literal", lit="int", t="1"))
    return nodes


@shape()
def splices(size):
    """One block of very many calls of macros, each expanded to two statements, 12,000 of them at 100,000 nodes."""
    nodes, block = body()
    for _ in nodes.statements(block, 8, size):
        stands_for = expanded(nodes, "MacroExpr", "MacroStmts", stmts=[]) + 2
        for _ in range(2):
            nodes.statement(stands_for)
            nodes.add("Literal", lit="int", t="1")
    return nodes


@shape()
def spliced(size):
    """Many chains of calls of macros in statement place, each expanded to a call, as many in one another as may be entered."""
    nodes, block = body()
    nodes.env["limit"] = ENTERED
    for _ in nodes.statements(block, 4 * ENTERED + 4, size):
        for depth in range(ENTERED):
            nodes.statement(expanded(nodes, "MacroExpr", "MacroStmts", min(depth, 1), stmts=[]) + 2)
        nodes.add("Literal", lit="int", t="1")
    return nodes


def calls_in_tuple(size, tuple_kind, call_kind, part_kind):
    """One tuple of very many calls of macros, each expanded to a part of this kind."""
    nodes = Nodes()
    fields = nodes.add(tuple_kind, fields=[])
    while len(nodes.all) + 3 <= size:
        nodes.all[fields]["fields"].append(expanded(nodes, call_kind, part_kind))
    return nodes


@shape("pat")
def macro_pats(size):
    """One tuple of very many calls of macros, each expanded to a pattern, 33,000 of them at 100,000 nodes."""
    return calls_in_tuple(size, "TuplePat", "MacroPat", "WildcardPat")


@shape("type")
def macro_types(size):
    """One tuple of very many calls of macros, each expanded to a type, 33,000 of them at 100,000 nodes."""
    return calls_in_tuple(size, "TupleType", "MacroType", "NeverType")


def labelled_block():
    """A function with a loop of label `'a`, and the number of the block in it."""
    nodes, block = body()
    loop = nodes.child(block, "tail", "LoopExpr")
    nodes.child(loop, "label", "Label", lifetime="'a")
    return nodes, nodes.child(loop, "body", "BlockExpr", stmts=[])


def define(nodes, block, number):
    """Adds the definition of a macro of this number to a block, of few names."""
    name = "m%d" % (number % NAMES)
    nodes.item(block, "stmts", "MacroRules", name=name)
    nodes.env["legacy"].append([0, name, number // NAMES, number])


@shape()
def definitions(size):
    """One block of very many definitions of macros of few names, and then a jump out of an expansion of each, 10,000 at 60,000 nodes.

    The last jump is for the first definition, behind which all others stand.
    """
    nodes, inner = labelled_block()
    macros = (size - len(nodes.all)) // 6
    nodes.env.update(hygiene=[], contexts=[], legacy=[])
    for number in range(macros):
        define(nodes, inner, number)
        nodes.env["contexts"].append([number + 1, 0, number + 1, number, False, None])
    for number in reversed(range(macros)):
        nodes.statement(inner)
        stands_for = expanded(nodes, "MacroExpr", "MacroStmts") + 2
        nodes.child(stands_for, "expr", "BreakExpr", lifetime="'a")
        nodes.env["hygiene"].append([1, stands_for + 1, number + 1])
    return nodes


@shape()
def passed(size):
    """One block of very many definitions of macros, and then as many jumps past all of them, 66,000 at 200,000 nodes."""
    nodes, inner = labelled_block()
    macros = (size - len(nodes.all)) // 3
    nodes.env["legacy"] = []
    for number in range(macros):
        define(nodes, inner, number)
    for _ in range(macros):
        nodes.statement(inner)
        nodes.add("BreakExpr", lifetime="'a")
    return nodes
