"""Known differences between what rust-analyzer 1.98.1 prints and what is stored here, each with a reason, and how each is undone.

Some are undone in what was read from the listing, one in the document, and the others by taking out of both prints what they differ in;
that is done only where the text or the listing has what the difference comes from. `ROWS` names the row of docs/DIFFERENCES.md that
tells each.
"""
import copy
import re

from listing import Form, Path, Segment

ROWS = {
    "condition of a `while`": "the condition of a `while` is the condition of the branch in its loop",
    "parameters of async functions": "a plain parameter of an async function keeps its `mut`",
    "`..` in assigned arrays": "a rest pattern in an array that is assigned to isn't kept",
    "conditions at statements, elements and parameters": "a disabled expression statement or element of a tuple is missing",
    "patterns in traits": "a pattern among the parameters of a trait's function without body",
    "patterns that are blocks of constants": "a pattern that is a `const` block is kept",
    "`rustc_box`": "a call of `Box::new` with `rustc_box` is a form of its own",
    "labels around constants": "a jump in a constant argument, or in the length of an array type, finds the labels around it",
    "`yield` in an inner body": "a `yield` in",
    "`?` in an inner body": "a `?` in a constant argument",
    "`self::super`": "a `self` with names after it makes the path one of `self`",
    "ABI": "an ABI text is read by rustc's list",
    "leading comma": "a comma before all parts puts a missing one there",
    "literals behind a minus": "literals take a minus",
    "`format_args!`": "inline assembly and format strings",
}


def rebuilt(value, change):
    """A copy of what was read, from its leaves up, in which each form was changed."""
    if isinstance(value, Form):
        parts = [rebuilt(part, change) for part in value.parts]
        return change(Form(value.group, value.kind, value.file, value.node, parts))
    if isinstance(value, list):
        return [rebuilt(part, change) for part in value]
    if isinstance(value, (Path, Segment)):
        return type(value)(*(rebuilt(part, change) for part in value))
    if type(value) is tuple:
        return tuple(rebuilt(part, change) for part in value)
    return value


def with_forms(listed, change):
    """A copy of a listing in which each form was changed."""
    made = copy.copy(listed)
    for field in ("params", "body", "where", "args", "answer"):
        if hasattr(made, field):
            setattr(made, field, rebuilt(getattr(made, field), change))
    return made


def one_name(form):
    """The name of a form that is a path of one name, or None."""
    if form is None or form.kind != "Path" or form.parts[0].front or len(form.parts[0].segments) != 1:
        return None
    return form.parts[0].segments[0].name


def while_conditions(listed):
    """The condition of a `while` without `let` stands in a block that binds it; upstream has the condition itself."""
    def change(form):
        block = form.parts[0] if form.is_kind("expr", "If") else None
        if block is None or block.kind != "Block" or len(block.parts[3]) != 1 or block.parts[3][0].kind != "LetStmt":
            return form
        pattern, _, value, _ = block.parts[3][0].parts
        name = one_name(block.parts[4])
        if pattern.kind == "Bind" and name and name.startswith("$") and listed.bindings[pattern.parts[0]].name == name:
            form.parts[0] = value
        return form

    return with_forms(listed, change)


def assigned_arrays(listed):
    """1.98.1 keeps no `..` of an array that is assigned to."""
    def inner(form):
        if form.is_kind("pat", "Slice") and form.parts[1] is not None and form.parts[1].kind == "Rest":
            form.parts[1] = None
        return form

    def change(form):
        if form.is_kind("expr", "Assignment"):
            form.parts[0] = rebuilt(form.parts[0], inner)
        return form

    return with_forms(listed, change)


class AsyncParameters:
    """1.98.1 leaves a plain parameter as written and puts `let mut x = x` in front; here it is `mut x`, and `let x = x`."""

    def __init__(self, listed):
        self.listed, self.bindings = listed, dict(listed.bindings)

    def undone(self):
        """A copy of the listing with the other bindings."""
        def change(form):
            if form.is_kind("expr", "Closure") and form.parts[0].startswith("coclosure:") and form.parts[4].kind == "Closure":
                self.parameters([pattern for pattern, _ in form.parts[2]], form.parts[4].parts[4])
            return form

        made = with_forms(self.listed, change)
        body = getattr(made, "body", None)
        if body is not None and body.kind == "Closure" and body.parts[0].endswith(":fn"):
            self.parameters(made.params, body.parts[4])
        made.bindings = self.bindings
        return made

    def parameters(self, params, body):
        """Changes the bindings of the parameters that statements of the body hand on."""
        rest = [stmt for stmt in body.parts[3] if stmt.kind == "LetStmt"] if body.kind == "Block" else []
        for param in params:
            if param.kind != "Bind":
                continue
            name = self.bindings[param.parts[0]].name
            used = [at for at, stmt in enumerate(rest) if one_name(stmt.parts[2]) == name]
            if name == "self" and self.listed.receiver and used[:1] == [0]:
                del used[0]
            if used:
                del rest[:self.handed_on(param, name, rest, used[0])]

    def handed_on(self, param, name, rest, at):
        """Changes the binding of one parameter, and answers how many statements that was."""
        pattern, behind = rest[at].parts[0], rest[at + 1] if at + 1 < len(rest) else None
        plain = pattern.kind == "Bind" and pattern.parts[1] is None
        if plain and self.is_mutable(pattern, name) and behind is not None and one_name(behind.parts[2]) == name \
                and not self.is_plain(behind.parts[0]):
            return at + 2
        if plain and self.is_plain(pattern):
            own, other = self.bindings[param.parts[0]], self.bindings[pattern.parts[0]]
            self.bindings[param.parts[0]] = own._replace(mode=other.mode)
            self.bindings[pattern.parts[0]] = other._replace(name=name, mode="mut")
        return at + 1

    def is_mutable(self, pattern, name):
        """Whether a pattern binds a name as mutable."""
        bound = self.bindings[pattern.parts[0]]
        return (bound.name, bound.mode) == (name, "mut")

    def is_plain(self, pattern):
        """Whether a pattern binds a name alone, by value."""
        return pattern.kind == "Bind" and pattern.parts[1] is None and self.bindings[pattern.parts[0]].mode in ("plain", "mut")


LISTED = {
    "`..` in assigned arrays": assigned_arrays,
    "condition of a `while`": while_conditions,
    "parameters of async functions": lambda listed: AsyncParameters(listed).undone(),
}

# A literal that is no plain integer, behind a minus; at an end of a range it vanishes, else it is missing.
BEHIND_MINUS = r"-\d+(?:\.(?!\.)\d*\w*|[a-z]\w*)"
END_OF_RANGE = rf"{BEHIND_MINUS}(?=\.\.)|(?:(?<=\.\.)|(?<=\.\.=)){BEHIND_MINUS}"

# What the text has to have, and what is taken out of both prints, as a pattern and what stands for it.
ERASED = {
    "`rustc_box`": (r"\brustc_box\b", [(r"\bBox::new\(\s*", "box "), (r",\s*\)", "")]),
    "`yield` in an inner body": (r"\byield\b", [(r"\bstatic (?=move |\|)", "")]),
    "`?` in an inner body": (r"\?", [(r"\b(return|break <gen\d+>) builtin#lang\((from_residual|residual_into_try_type)\)", "leave")]),
    "`self::super`": (r"\bself\s*::\s*super\b", [(r"\b(self|super)(::super)*\b", "self")]),
    "ABI": (r"\bextern\s*\"", [(r"\bextern [\w-]* ?(?=fn)", "extern C ")]),
    "leading comma": (r"\(\s*,", [(r"[,. ]", "")]),
    "literals behind a minus": (r"-\s*\d", [(END_OF_RANGE, ""), (BEHIND_MINUS, "\ufffd")]),
    "patterns that are blocks of constants": (r"\bconst\s*\{", [(r"const \{[^{}]*\}", "\ufffd")]),
}
LOST_LABEL = "labels around constants"
LABEL_FAULTS = ("UndeclaredLabel", "UnreachableLabel")
JUMP = re.compile(r"\b(break|continue)( '(?:r#)?\w+)?")
LEFT_OUT = re.compile(r"\bbuiltin\s*#\s*format_args\b")


def alike(text):
    """A print with what is told in two ways on both sides made one: numbers of made-up names, `$crate`, inline
    assembly, numbers in `const` blocks, the end of the last line.
    """
    seen = {}
    text = re.sub(r"<ra@gennew>(\d+)", lambda found: f"<gen{seen.setdefault(found[1], len(seen))}>", text)
    text = re.sub(r"\bc\d+::", "crate::", text)
    return re.sub(r"const \{ /\* .*? \*/ \}", "const { /* _ */ }", text.replace("builtin#asm(_)", "\ufffd")).rstrip("\n")


def erased(name, text):
    """A print without what a difference consists of."""
    for pattern, other in ERASED[name][1]:
        text = re.sub(pattern, other, text)
    return text


def without_lost_labels(listed, ours, theirs):
    """Upstream's print without the labels of those jumps that have none here, no more of them than the listing tells of."""
    kept, others = list(JUMP.finditer(ours)), list(JUMP.finditer(theirs))
    lost = [bool(other[2] and not own[2]) for own, other in zip(kept, others)]
    told = sum(kind in LABEL_FAULTS for kind, _, _ in getattr(listed, "diagnostics", ()))
    if len(kept) != len(others) or sum(lost) > told:
        return theirs
    left = iter(lost)
    return JUMP.sub(lambda found: found[1] if next(left) else found[0], theirs)


def undo(listed, write, theirs, source):
    """The names of the differences that explain why two prints aren't equal, or None where they don't explain it all.

    `write` prints a listing, `theirs` is what upstream printed, `source` is the text of the function.
    """
    fired, ours = [], write(listed)
    for name, change in LISTED.items():
        listed = change(listed)
        changed = write(listed)
        if changed != ours:
            fired.append(name)
            ours = changed
    for name, (needed, _) in ERASED.items():
        other = erased(name, ours), erased(name, theirs)
        if re.search(needed, source) and differing(*other) < differing(ours, theirs):
            fired.append(name)
            ours, theirs = other
    unlabelled = without_lost_labels(listed, ours, theirs)
    if unlabelled != theirs:
        fired.append(LOST_LABEL)
    if ours == unlabelled:
        return fired
    return ["`format_args!`"] if LEFT_OUT.search(source) else None


def differing(ours, theirs):
    """In how many lines two prints differ."""
    left, right = ours.split("\n"), theirs.split("\n")
    return abs(len(left) - len(right)) + sum(one != other for one, other in zip(left, right))


def older(document):
    """Documents as 1.98.1 takes them, each with the name of the difference."""
    conditions = OldConditions(document).made()
    if conditions is not None:
        yield "conditions at statements, elements and parameters", conditions
    if document.get("container") == "trait" and "body" not in document["nodes"][0]:
        yield "patterns in traits", {**document, "container": "impl"}


class OldConditions:
    """A document as 1.98.1 takes conditions: a disabled expression statement or element of a tuple is missing, and the parameter of a
    closure is kept.
    """

    def __init__(self, document):
        self.document, self.changed = copy.deepcopy(document), False
        self.nodes = self.document["nodes"]
        self.disabled = {number for _, number, _ in self.document.get("env", {}).get("disabled", [])}

    def made(self):
        """The other document, or None where it would be the same."""
        for node in self.nodes:
            if node["k"] == "ExprStmt":
                self.missing([node["expr"]] if "expr" in node and self.nodes[node["expr"]]["k"] != "MacroExpr" else [])
            elif node["k"] == "TupleExpr":
                self.missing(node["fields"])
            elif node["k"] == "ClosureExpr":
                self.kept(node.get("params", []))
        if not self.changed:
            return None
        tables = self.document["env"]
        tables["disabled"] = [entry for entry in tables["disabled"] if entry[1] in self.disabled]
        return without_unused(self.document)

    def missing(self, numbers):
        """Makes disabled expressions missing: each is a prefix without operator."""
        for number in self.disabled.intersection(numbers):
            self.nodes[number] = {"k": "PrefixExpr", "r": self.nodes[number]["r"]}
            self.kept([number])

    def kept(self, numbers):
        """Takes the conditions of nodes away."""
        self.changed = self.changed or not self.disabled.isdisjoint(numbers)
        self.disabled.difference_update(numbers)


def without_unused(document):
    """A document without the nodes that no other names, with new numbers."""
    nodes, order = document["nodes"], []

    def visit(number):
        order.append(number)
        for part in references(nodes[number]):
            visit(part)

    visit(0)
    numbers = {old: new for new, old in enumerate(sorted(order))}

    def renumbered(field, value):
        if field in ("r", "pred") or isinstance(value, bool):
            return value
        if isinstance(value, list):
            return [renumbered(field, part) for part in value]
        return numbers[value] if isinstance(value, int) else value

    document["nodes"] = [{field: renumbered(field, value) for field, value in nodes[old].items()} for old in sorted(order)]
    for name in ("disabled", "blocks", "macros"):
        rows = document.get("env", {}).get(name, [])
        rows[:] = [[row[0], numbers[row[1]], *row[2:]] for row in rows if row[1] in numbers]
    return document


def references(node):
    """The numbers of the parts of a node."""
    for field, value in node.items():
        if field not in ("r", "pred"):
            for part in value if isinstance(value, list) else [value]:
                if isinstance(part, int) and not isinstance(part, bool):
                    yield part
