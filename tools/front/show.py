"""What is stored, as text like Rust with marks around each form."""
import html

from listing import SIGN_PATS, Form

from .layout import HARD, LINE, Around, Group, Html, Nest, around, braces, keyword, word
from .show_types import TypeWriter

MADE = {"ForExpr": "for", "WhileExpr": "while", "TryExpr": "?", "RangeExpr": "range"}
COROUTINES = {"async": "async", "gen": "gen", "asyncgen": "async gen"}
MODES = {"mut": "mut ", "ref": "ref ", "refmut": "ref mut "}
LOOSE = frozenset("BinaryOp Assignment Cast Closure Let UnaryOp Ref Break Return Yield Yeet Become If Match Loop".split())
DEEPEST_CALLS = 70
LONGEST_LITERAL = 60
ITERATED = "IntoIterIntoIter"


class Outer:
    """What a form stands in: what that was made up for, and the node of it that was written."""

    __slots__ = ("made", "node")

    def __init__(self, made, node):
        self.made, self.node = made, node


class Show(TypeWriter):
    """Writes the forms of one body."""

    def __init__(self, number_of, nodes, body, text):
        self.number_of, self.nodes, self.body, self.text = number_of, nodes, body, text
        self.around = [Outer(None, None)]
        self.marked = 0

    # where a form came from

    def node(self, form):
        """The node of the text that a form came from, or None."""
        if form.node is None or form.file != 0 or form.node >= len(self.nodes):
            return None
        return self.nodes[form.node]

    def call_of(self, file):
        """The call in the text itself that a file came from, through the calls in its expansion."""
        for _ in range(DEEPEST_CALLS):
            place = next((words[0] for words in self.body.expansions if words[1] == str(file)), None)
            if place is None:
                return None
            file, _, node = place[1:].rpartition(".")
            if not file:
                return self.nodes[int(node)] if int(node) < len(self.nodes) else None
        return None

    def made_for(self, form):
        """What a form was made up for; `made` where that isn't known, empty for what is missing; None where it was written."""
        node, outer = self.node(form), self.around[-1].made
        if form.file:
            return "macro"
        if node is None:
            if is_coroutine(form):
                return COROUTINES[form.parts[0].split(":")[1]]
            return outer or ("" if form.kind == "Missing" else "made")
        if is_named(form, ITERATED):
            return "for"
        if node["k"] in MADE:
            return MADE[node["k"]]
        modifier = node.get("mod") if node["k"] == "BlockExpr" else None
        if modifier == "try" or (modifier in COROUTINES and form.kind != "Block"):
            return COROUTINES.get(modifier, modifier)
        return (outer or "made") if is_named(form) else None

    def in_form(self, form, write):
        """Writes a form, in which it is the outer one."""
        node = self.node(form)
        self.around.append(Outer(self.made_for(form), None if node is None or is_named(form, ITERATED) else form.node))
        layout = write(form, *form.parts)
        self.around.pop()
        return self.mark(form, node, layout)

    def mark(self, form, node, layout):
        """The span around a form: its range, what it is, and what it was made up for."""
        made, outer = self.made_for(form), self.around[-1]
        if made and node is not None and node["k"] == "RangeExpr" and form.kind not in ("RecordLit", "Call"):
            made = None
        styles, words = ["n", "made" if made else "own"], self.place_words(form, node)
        if form.kind == "Missing":
            styles.append("missing")
        if made:
            words += f' data-m="{html.escape(made)}"'
        if made and made != "made" and self.begins(form, node, made, outer):
            layout = [Html(f'<b class=chip title="made up for `{html.escape(made)}`">{html.escape(made)}</b>', len(made) + 1), layout]
        words += f' data-k="{form.kind}{"" if form.group == "expr" else " pattern"}"'
        self.marked += 1
        return Around(f'<span class="{" ".join(styles)}"{words}>', layout)

    def place_words(self, form, node):
        """The words that tie a form to a range of the text; one in an expansion to that of the call."""
        place = "" if form.node is None else f' data-n="{f"{form.file}." if form.file else ""}{form.node}"'
        if node is not None:
            return f" data-r={self.number_of(*node['r'])}{place}"
        if not form.file:
            return place
        call = self.call_of(form.file)
        return f' data-x="expansion {form.file}"' + (f" data-r={self.number_of(*call['r'])}" if call else "") + place

    def begins(self, form, node, made, outer):
        """Whether what was made up begins with this form."""
        if is_coroutine(form) or (made == "macro" and outer.made != "macro"):
            return True
        written = node is not None and (node["k"] in MADE or node["k"] == "BlockExpr") and not is_named(form, ITERATED)
        return written and all(around.node != form.node for around in self.around)

    # names

    def name(self, name):
        """A name; one that lowering made up is `tmp` and its number."""
        made_up = name.startswith("$") and name[1:].isdigit()
        return word("tmp" + name[1:], "gen") if made_up else name

    def binding(self, key):
        """A binding by its name, with how it is bound."""
        bound = self.body.bindings.get(key)
        if bound is None:
            return key
        mode = keyword(MODES[bound.mode]) if bound.mode != "plain" else ""
        if bound.problem != "-":
            marked = f'<i class="bad" title="binding problem: {bound.problem}">{html.escape(bound.name)}</i>'
            return [mode, Html(marked, len(bound.name))]
        name = self.name(bound.name)
        return [mode, name if isinstance(name, Html) else word(name, "bind")]

    def label(self, key):
        """A label by its name."""
        name = self.body.labels.get(key, key)
        return word("'tmp" + name[1:], "gen") if name.startswith("$") else word(name, "lt")

    # expressions

    def expr(self, form, tight=False):
        """An expression; in a tight place in parentheses where it needs them."""
        if form is None:
            return ""

        def write(form, *parts):
            layout = getattr(self, "expr_" + form.kind)(form, *parts)
            return ["(", layout, ")"] if tight and form.kind in LOOSE else layout

        return self.in_form(form, write)

    def exprs(self, forms):
        """Expressions one by one."""
        return [self.expr(form) for form in forms]

    def expr_Missing(self, _):
        """What is missing."""
        return Html("⟨missing⟩", 9)

    def expr_Underscore(self, _):
        """`_`."""
        return "_"

    def expr_IncludeBytes(self, _):
        """The bytes of a file."""
        return Html("⟨include_bytes⟩", 15)

    def expr_Path(self, _, path):
        """A path."""
        return self.path(path)

    def expr_Literal(self, form, literal):
        """A literal as it is written, where that is short, else as it is stored."""
        node = self.node(form)
        if node is not None:
            written = self.text[node["r"][0]:node["r"][1]].decode("utf-8", "replace")
            if len(written) <= LONGEST_LITERAL and "\n" not in written and not written.startswith("#"):
                return word(written, "lit")
        return word(literal.raw.replace("\n", "\\n")[:LONGEST_LITERAL], "lit")

    def expr_If(self, _, condition, then, other):
        """A branch, with `else if` in one row."""
        layout = [keyword("if"), " ", self.expr(condition), " ", self.block(then)]
        if other is not None:
            layout += [" ", keyword("else"), " ", self.expr(other) if other.kind == "If" else self.block(other)]
        return Group(*layout)

    def block(self, form):
        """A block, or anything else in braces."""
        if form is None or form.kind in ("Block", "Missing", "Closure"):
            return self.expr(form)
        return Group("{", Nest([LINE, self.expr(form)]), LINE, "}")

    def expr_Let(self, _, pattern, value):
        """A condition that binds."""
        return [keyword("let"), " ", self.pat(pattern), " = ", self.expr(value, True)]

    def expr_Block(self, _, unsafe, label, number, stmts, tail):
        """A block, with its number as a note."""
        front = [self.label(label), ": "] if label else []
        front += [keyword("unsafe"), " "] if unsafe else []
        note = [" ", Html(f'<i class=note title="block {number[1:]}: a scope of items">{number}</i>', len(number))] if number else []
        lines = [self.stmt(stmt) for stmt in stmts] + ([self.expr(tail)] if tail is not None else [])
        if not lines:
            return [front, "{", note, "}"]
        if not stmts and not note:
            return Group(front, "{", Nest([LINE, lines[0]]), LINE, "}")
        return Group(front, "{", note, Nest([part for line in lines for part in (HARD, line)]), HARD, "}")

    def expr_Const(self, _, inner):
        """A `const` block."""
        return [keyword("const"), " ", self.expr(inner)]

    def expr_Loop(self, _, body, label, _source):
        """A loop, whatever it was written as."""
        return [[self.label(label), ": "] if label else "", keyword("loop"), " ", self.block(body)]

    def expr_Call(self, _, callee, args):
        """A call."""
        return Group(self.expr(callee, True), around("(", self.exprs(args), ")"))

    def expr_MethodCall(self, _, receiver, name, arguments, args):
        """A call of a method."""
        return Group(self.expr(receiver, True), ".", word(name, "fn"), self.arguments(arguments), around("(", self.exprs(args), ")"))

    def expr_Match(self, _, value, arms):
        """A match, each arm on a line."""
        head = [keyword("match"), " ", self.expr(value), " "]
        if not arms:
            return head + ["{}"]
        lines = []
        for pattern, guard, result in (arm.parts for arm in arms):
            asked = [" ", keyword("if"), " ", self.expr(guard)] if guard is not None else ""
            lines += [HARD, self.pat(pattern), asked, " => ", self.expr(result), ","]
        return Group(head, "{", Nest(lines), HARD, "}")

    def jump(self, words, label, value):
        """A jump with its label and its value."""
        return [keyword(words), [" ", self.label(label)] if label else "", [" ", self.expr(value)] if value is not None else ""]

    def expr_Continue(self, _, label):
        """A jump to the next turn."""
        return self.jump("continue", label, None)

    def expr_Break(self, _, label, value):
        """A jump out."""
        return self.jump("break", label, value)

    def expr_Return(self, _, value):
        """A return."""
        return self.jump("return", None, value)

    def expr_Become(self, _, value):
        """A call in the place of this one."""
        return self.jump("become", None, value)

    def expr_Yield(self, _, value):
        """What a coroutine hands out."""
        return self.jump("yield", None, value)

    def expr_Yeet(self, _, value):
        """What is thrown."""
        return self.jump("do yeet", None, value)

    def expr_RecordLit(self, _, path, fields, spread):
        """A record."""
        layouts = [[word(name, "fld"), ": ", self.expr(value)] for name, value in fields]
        if spread is not None:
            layouts.append(["..", "" if spread == ".." else self.expr(spread)])
        return braces(self.path(path), layouts)

    def expr_Field(self, _, value, name):
        """A field."""
        return [self.expr(value, True), ".", word(name, "fld")]

    def expr_Await(self, _, value):
        """What is waited for."""
        return [self.expr(value, True), ".", keyword("await")]

    def expr_Cast(self, _, value, kind):
        """A cast."""
        return [self.expr(value, True), " ", keyword("as"), " ", self.type(kind)]

    def expr_Ref(self, _, kind, mutable, value):
        """A borrow."""
        if kind == "raw":
            return ["&raw ", "mut " if mutable == "mut" else "const ", self.expr(value, True)]
        return ["&mut " if mutable == "mut" else "&", self.expr(value, True)]

    def expr_UnaryOp(self, _, sign, value):
        """An operator in front."""
        return [sign, self.expr(value, True)]

    def expr_BinaryOp(self, form, sign, left, right):
        """The listing has one sign for minus and for none, so the node tells which."""
        node = self.node(form)
        if sign == "-" and node is not None and node["k"] == "BinExpr" and "op" not in node:
            sign = Html("<i class=missing>⟨?⟩</i>", 3)
        return Group(self.expr(left, True), Nest([LINE, sign, " ", self.expr(right, True)]))

    def expr_Assignment(self, _, target, value):
        """An assignment."""
        return Group(self.pat(target), " =", Nest([LINE, self.expr(value)]))

    def expr_Closure(self, form, kind, capture, params, answer, body):
        """A closure, or a coroutine as the block that it was."""
        move = [keyword("move"), " "] if capture == "move" else []
        family, _, rest = kind.partition(":")
        if is_coroutine(form):
            return [keyword(COROUTINES[rest.split(":")[0]]), " ", move, self.block(body)]
        front = []
        if family == "coclosure":
            front = [keyword(COROUTINES[rest]), " "]
        elif family == "old":
            front = [keyword("static") if rest == "static" else word("coroutine", "note"), " "]
        layouts = [[self.pat(pattern), [": ", self.type(kind)] if kind is not None else ""] for pattern, kind in params]
        arrow = [" -> ", self.type(answer)] if answer is not None else []
        return Group(front, move, around("|", layouts, "|"), arrow, " ", self.expr(body))

    def expr_Tuple(self, _, parts):
        """A tuple."""
        return around("(", self.exprs(parts), ",)" if len(parts) == 1 else ")")

    def expr_Array(self, _, parts):
        """An array."""
        return around("[", self.exprs(parts), "]")

    def expr_Repeat(self, _, value, count):
        """A repetition."""
        return ["[", self.expr(value), "; ", self.expr(count), "]"]

    def expr_Index(self, _, base, index):
        """An index."""
        return [self.expr(base, True), "[", self.expr(index), "]"]

    def expr_OffsetOf(self, _, kind, names):
        """The place of a field."""
        return ["offset_of!(", self.type(kind), ", ", ".".join(names), ")"]

    def stmt(self, form):
        """A statement."""
        if form.kind == "LetStmt":
            pattern, kind, value, other = form.parts
            parts = [keyword("let"), " ", self.pat(pattern), [": ", self.type(kind)] if kind is not None else ""]
            parts += [" = ", self.expr(value)] if value is not None else []
            parts += [" ", keyword("else"), " ", self.block(other)] if other is not None else []
            return Group(parts, ";")
        if form.kind == "Item":
            return word("⟨item⟩", "note")
        if form.kind == "MacroDef":
            return word(f"⟨macro {form.parts[0]}⟩", "note")
        return [self.expr(form.parts[0]), ";" if form.kind == "Semi" else ""]

    # patterns

    def pat(self, form, tight=False):
        """A pattern; in a tight place in parentheses where it has alternatives."""
        if form is None:
            return "_"

        def write(form, *parts):
            layout = SIGN_PATS.get(form.kind) or getattr(self, "pat_" + form.kind)(*parts)
            return ["(", layout, ")"] if tight and form.kind == "Or" else layout

        return self.in_form(form, write)

    def pat_Missing(self):
        """What is missing."""
        return Html("⟨missing⟩", 9)

    def pat_Bind(self, key, inner):
        """A binding."""
        return [self.binding(key), [" @ ", self.pat(inner, True)] if inner is not None else ""]

    def pat_Path(self, path):
        """A path."""
        return self.path(path)

    def dotted(self, place, parts):
        """Patterns with two dots at a place."""
        layouts = [self.pat(part) for part in parts]
        if place is not None:
            layouts.insert(int(place), "..")
        return layouts

    def pat_TupleStruct(self, path, place, parts):
        """A tuple behind a path."""
        return Group(self.path(path), around("(", self.dotted(place, parts), ")"))

    def pat_Tuple(self, place, parts):
        """A tuple."""
        return around("(", self.dotted(place, parts), ",)" if len(parts) == 1 and place is None else ")")

    def pat_Record(self, path, fields, dots):
        """A record."""
        layouts = [[word(name, "fld"), ": ", self.pat(part)] for name, part in fields]
        return braces(self.path(path), layouts + ([".."] if dots else []))

    def pat_Or(self, parts):
        """Alternatives."""
        return Group([[[LINE, "| "] if at else "", self.pat(part, True)] for at, part in enumerate(parts)])

    def pat_Slice(self, front, middle, behind):
        """A slice."""
        return around("[", [self.pat(part) for part in [*front, *([middle] if middle is not None else []), *behind]], "]")

    def pat_Ref(self, mutable, inner):
        """What a reference refers to."""
        return ["&mut " if mutable == "mut" else "&", self.pat(inner, True)]

    def pat_Box(self, inner):
        """What a box holds."""
        return [keyword("box"), " ", self.pat(inner, True)]

    def pat_Deref(self, inner):
        """What something leads to."""
        return [keyword("deref"), "!(", self.pat(inner), ")"]

    def pat_Lit(self, literal):
        """A literal."""
        return self.expr(literal)

    def pat_Range(self, sign, start, end):
        """A range."""
        return [self.expr(start), sign, self.expr(end)]

    def pat_Expr(self, place):
        """A place that is assigned to."""
        return self.expr(place, True)


def is_coroutine(form):
    """Whether a form is the coroutine that a block or a body is."""
    return form.is_kind("expr", "Closure") and form.parts[0].startswith("co:")


def is_named(form, item=None):
    """Whether a form is an item that the language names (this one), or a call of one."""
    if form.kind in ("Path", "TupleStruct", "RecordLit"):
        path = form.parts[0]
        return path.front == "lang" and item in (None, path.segments[0].name)
    return form.is_kind("expr", "Call") and isinstance(form.parts[0], Form) and is_named(form.parts[0], item)
