"""Shapes of bodies: expressions, loops, patterns, closures and coroutines."""
from nodes import CHAIN, NAMES, Nodes, body, shape


@shape()
def wide(size):
    """One block of very many literals."""
    nodes, block = body()
    for _ in nodes.statements(block, 2, size):
        nodes.add("Literal", lit="int", t="1")
    return nodes


@shape()
def calls(size):
    """One call with very many arguments, each a path."""
    nodes, block = body()
    nodes.statement(block)
    call = nodes.add("CallExpr", args=[])
    while len(nodes.all) + 3 <= size:
        argument = nodes.item(call, "args", "PathExpr")
        nodes.child(argument, "path", "Path", segs=[argument + 2])
        nodes.add("PathSegment", seg="name", name="a")
    return nodes


@shape()
def deep(size):
    """Many chains of parentheses, each as deep as a tree may be."""
    nodes, block = body()
    for _ in nodes.statements(block, CHAIN + 2, size):
        for _ in range(CHAIN):
            here = nodes.add("ParenExpr")
            nodes.all[here]["expr"] = here + 1
        nodes.add("Literal", lit="bool", t="true")
    return nodes


@shape()
def labels(size):
    """Many chains of labelled loops, each left by a break from inside all of them to the outermost label."""
    nodes, block = body()
    loops = CHAIN // 2
    for _ in nodes.statements(block, 3 * loops + 2, size):
        for level in range(loops):
            nodes.around_next(nodes.labelled("LoopExpr", level))
        nodes.add("BreakExpr", lifetime="'l0")
    return nodes


@shape()
def scopes(size):
    """One block of very many labelled loops, one behind the other, of few names: 250,000 labels that open and close at 1,000,000 nodes."""
    nodes, block = body()
    for _ in nodes.statements(block, 4, size):
        loop = nodes.labelled("LoopExpr", len(nodes.all) % NAMES)
        nodes.child(loop, "body", "BlockExpr", stmts=[])
    return nodes


@shape()
def jumps(size):
    """Many chains of 100 loops of different labels, each with a break to the outermost label in front of the next one."""
    nodes, block = body()
    for _ in nodes.statements(block, 5 * NAMES + 1, size):
        for level in range(NAMES):
            loop = nodes.labelled("LoopExpr", level)
            inner = nodes.child(loop, "body", "BlockExpr", stmts=[])
            nodes.statement(inner)
            nodes.add("BreakExpr", lifetime="'l0")
            if level + 1 < NAMES:
                nodes.all[inner]["tail"] = len(nodes.all)
    return nodes


@shape()
def arms(size):
    """One match of very many arms that bind a name, 100,000 of them at 300,000 nodes."""
    nodes, block = body()
    nodes.statement(block)
    match = nodes.add("MatchExpr", arms=[])
    nodes.child(match, "expr", "UnderscoreExpr")
    while len(nodes.all) + 3 <= size:
        arm = nodes.item(match, "arms", "MatchArm")
        nodes.child(arm, "pat", "IdentPat", name="x")
        nodes.child(arm, "expr", "Literal", lit="int", t="1")
    return nodes


@shape()
def turns(size):
    """Many chains of `while`s, each the condition of the one around it, the innermost with a break."""
    nodes, block = body()
    for _ in nodes.statements(block, 2 * CHAIN + 2, size):
        chain = []
        for _ in range(CHAIN - 1):
            here = nodes.add("WhileExpr")
            nodes.all[here]["condition"] = here + 1
            chain.append(here)
        nodes.add("BreakExpr")
        for here in chain:
            nodes.child(here, "body", "BlockExpr", stmts=[])
    return nodes


def head_of_for(nodes, here):
    """Gives a `for` what it goes over, and a name for each."""
    nodes.child(here, "pat", "IdentPat", name="x")
    nodes.child(here, "iterable", "UnderscoreExpr")


@shape()
def fors(size):
    """One block of very many `for`s, 100,000 of them at 500,000 nodes."""
    nodes, block = body()
    for _ in nodes.statements(block, 5, size):
        here = nodes.add("ForExpr")
        head_of_for(nodes, here)
        nodes.child(here, "body", "BlockExpr", stmts=[])
    return nodes


@shape()
def visits(size):
    """Many chains of labelled `for`s, each the body of the one around it, left from inside all of them to the outermost label."""
    nodes, block = body()
    loops = CHAIN // 2
    for _ in nodes.statements(block, 5 * loops + 2, size):
        for level in range(loops):
            here = nodes.labelled("ForExpr", level)
            head_of_for(nodes, here)
            nodes.around_next(here)
        nodes.add("BreakExpr", lifetime="'l0")
    return nodes


@shape()
def questions(size):
    """Many chains of `try` blocks, each with the next one and its `?` as its tail."""
    nodes, block = body()
    for _ in nodes.statements(block, CHAIN + 2, size):
        for _ in range(CHAIN // 2):
            here = nodes.add("TryExpr")
            nodes.all[here]["expr"] = here + 1
            here = nodes.add("BlockExpr", mod="try")
            nodes.all[here]["tail"] = here + 1
        nodes.add("Literal", lit="int", t="1")
    return nodes


def closure_with_parameter(nodes, closure, pattern):
    """Adds a closure with a parameter; the fields are those of the closure and of the pattern."""
    here = nodes.add("ClosureExpr", **closure)
    param = nodes.add("Param")
    nodes.all[here]["params"] = [param]
    nodes.child(param, "pat", "IdentPat", name="x", **pattern)
    return here


@shape()
def closures(size):
    """One block of very many closures with a parameter, 50,000 of them at 200,000 nodes."""
    nodes, block = body()
    for _ in nodes.statements(block, 5, size):
        here = closure_with_parameter(nodes, {}, {})
        nodes.child(here, "body", "UnderscoreExpr")
    return nodes


@shape()
def barriers(size):
    """Many chains of closures, each the body of the one around it, with a yield in the innermost."""
    nodes, block = body()
    for _ in nodes.statements(block, CHAIN + 1, size):
        for _ in range(CHAIN - 1):
            here = nodes.add("ClosureExpr")
            nodes.all[here]["body"] = here + 1
        nodes.add("YieldExpr")
    return nodes


def closure_chains(size, closure, pattern):
    """Many chains of closures with a parameter, each the body of the one around it; the fields are those of each closure and pattern."""
    nodes, block = body()
    for _ in nodes.statements(block, 3 * CHAIN, size):
        for _ in range(CHAIN - 1):
            here = closure_with_parameter(nodes, closure, pattern)
            nodes.all[here]["body"] = here + 3
        nodes.add("UnderscoreExpr")
    return nodes


@shape()
def owners(size):
    """Chains of plain closures, each of which owns its parameter."""
    return closure_chains(size, {}, {})


@shape()
def coroutines(size):
    """Many chains of `async` blocks with a binding, each the tail of the one around it."""
    nodes, block = body()
    for _ in nodes.statements(block, 3 * CHAIN, size):
        for _ in range(CHAIN - 1):
            here = nodes.add("BlockExpr", mod="async")
            statement = nodes.add("LetStmt")
            nodes.all[here]["stmts"] = [statement]
            nodes.child(statement, "pat", "IdentPat", name="x")
            nodes.all[here]["tail"] = statement + 2
        nodes.add("UnderscoreExpr")
    return nodes


@shape()
def owned(size):
    """One chain of closures as deep as a tree may be, around a block of very many bindings, 100,000 of them at 200,000 nodes."""
    nodes, block = body()
    nodes.statement(block)
    for _ in range(CHAIN - 2):
        here = nodes.add("ClosureExpr")
        nodes.all[here]["body"] = here + 1
    inner = nodes.add("BlockExpr", stmts=[])
    while len(nodes.all) + 2 <= size:
        statement = nodes.item(inner, "stmts", "LetStmt")
        nodes.child(statement, "pat", "IdentPat", name="x")
    return nodes


@shape()
def preludes(size):
    """Chains of `async` closures, each with a parameter that is handed in between."""
    return closure_chains(size, {"async": True}, {"ref": True})


@shape()
def handed(size):
    """One `async` closure with very many parameters, 100,000 of them at 200,000 nodes."""
    nodes, block = body()
    nodes.statement(block)
    closure = nodes.add("ClosureExpr", params=[])
    nodes.all[closure]["async"] = True
    while len(nodes.all) + 3 <= size:
        param = nodes.item(closure, "params", "Param")
        nodes.child(param, "pat", "IdentPat", name="x")
    nodes.child(closure, "body", "UnderscoreExpr")
    return nodes


@shape()
def resolved(size):
    """One block of very many paths in patterns, each with an entry of its own that says what it stands for."""
    nodes, block = body()
    nodes.env["resolve"] = []
    while len(nodes.all) + 2 <= size:
        statement = nodes.item(block, "stmts", "LetStmt")
        name = "X%d" % statement
        nodes.child(statement, "pat", "IdentPat", name=name)
        nodes.env["resolve"].append([0, name, None, "const", None])
    return nodes


@shape("pat")
def alternatives(size):
    """One or-pattern of very many alternatives that bind the same names, 1,000 of them at 101,000 nodes."""
    nodes = Nodes()
    pats = nodes.add("OrPat", pats=[])
    while len(nodes.all) + NAMES + 1 <= size:
        fields = nodes.item(pats, "pats", "TuplePat", fields=[])
        for name in range(NAMES):
            nodes.item(fields, "fields", "IdentPat", name="x%d" % name)
    return nodes


@shape("pat")
def absences(size):
    """One or-pattern whose first alternative binds very many names, and as many alternatives that bind none of them."""
    nodes = Nodes()
    pats = nodes.add("OrPat", pats=[1])
    fields = nodes.add("TuplePat", fields=[])
    while len(nodes.all) < size // 2:
        nodes.item(fields, "fields", "IdentPat", name="x%d" % len(nodes.all))
    while len(nodes.all) < size:
        nodes.item(pats, "pats", "WildcardPat")
    return nodes
