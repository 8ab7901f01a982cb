"""Prints a listing that was read back as `rust-analyzer/viewHir` prints what upstream lowered.

The document serves for what the listing can't tell: which literal a text is, and whether a binary expression has an operator. Contents of
`const` blocks, numbers of blocks, owners, problems of bindings, hygiene and sources aren't printed by upstream, so not here either.
"""
import re
import unicodedata

from .hir_output import Output
from .hir_types import HirTypes
from .texts import INTS, quoted

LEVELS = {name: level for level, name in enumerate("""Jump Assign Range LOr LAnd Compare BitOr BitXor BitAnd Shift Sum Product Cast Prefix
    Postfix Unambiguous""".split())}
SIGNS = {
    "||": "LOr", "&&": "LAnd", "+": "Sum", "-": "Sum", "*": "Product", "/": "Product", "%": "Product", "<<": "Shift", ">>": "Shift",
    "^": "BitXor", "|": "BitOr", "&": "BitAnd",
} | {sign: "Compare" for sign in ("==", "!=", "<", ">", "<=", ">=")}
KINDS = {"Assignment": "Assign", "Cast": "Cast"} | {
    kind: level for level, kinds in (("Postfix", "Await Call Field Index MethodCall"), ("Prefix", "Let UnaryOp Ref"),
                                     ("Jump", "Become Break Closure Return Yeet Yield")) for kind in kinds.split()}
BAD = "\ufffd"
OWNERS = {"fn": "fn {}", "static": "static {} = ", "const": "const {} = ", "variant": "enum {}"}
WORDS = {"async": "async ", "gen": "gen ", "asyncgen": "async gen "}
JUMPS = {"Return": "return", "Yield": "yield", "Yeet": "do yeet", "Become": "become"}
UNSIGNED = tuple(name for name in INTS if name.startswith("u"))
HIDDEN = ("Cc", "Cf", "Cs", "Co", "Cn", "Zl", "Zp", "Zs", "Mn", "Me")
ESCAPES = {"\0": "\\0", "\t": "\\t", "\r": "\\r", "\n": "\\n", "\\": "\\\\"}


def escaped(text, quotes):
    """A text as Rust shows one for reading."""
    out = []
    for char in text:
        if char in ESCAPES or char in quotes:
            out.append(ESCAPES.get(char, "\\" + char))
        elif char != " " and unicodedata.category(char) in HIDDEN:
            out.append("\\u{%x}" % ord(char))
        else:
            out.append(char)
    return "".join(out)


def escaped_bytes(values):
    """Bytes as Rust shows them for reading."""
    signs = {9: "\\t", 13: "\\r", 10: "\\n", 34: '\\"', 39: "\\'", 92: "\\\\"}
    return "".join(signs.get(value) or (chr(value) if 32 <= value < 127 else "\\x%02x" % value) for value in values)


class HirPrinter(HirTypes):
    """Prints one body, or one signature."""

    def __init__(self, document, listed, text):
        self.nodes, self.listed, self.text, self.out = document["nodes"], listed, text, Output("")

    def body(self, owner, name):
        """A body with the heading of its owner."""
        self.out = Output(OWNERS[owner].format(name))
        if owner == "fn":
            self.heading()
        self.expr(self.listed.body)
        if owner in ("static", "const"):
            self.out.write(";")
        return self.out.text()

    def heading(self):
        """What parameters are bound by. Behind a `self` alone a comma stays."""
        pieces = self.out.pieces
        pieces.append("(")
        if self.listed.receiver:
            self.binding(self.listed.receiver)
            pieces.append(", ")
        for param in self.listed.params:
            self.pat(param)
            pieces.append(", ")
        if self.listed.params:
            pieces[-1] = ""
        pieces += [")", " "]

    def node(self, form):
        """The node of a form's place, whatever file that is in."""
        return self.nodes[form.node] if form.node is not None and form.node < len(self.nodes) else {}

    # how tightly a form binds

    def range(self, form):
        """Operator and ends of a range, which upstream keeps as one, or None."""
        if form.kind == "RecordLit" and form.parts[0].front == "lang" and form.parts[0].segments[0].name.startswith("Range"):
            fields = dict(form.parts[1])
            return self.node(form).get("op", ".."), fields.get("start"), fields.get("end", fields.get("last"))
        if form.kind == "Call" and len(form.parts[1]) == 2 and form.parts[0].kind == "Path":
            path = form.parts[0].parts[0]
            if path.front == "lang" and path.segments[0].name == "RangeInclusiveNew":
                return "..=", *form.parts[1]
        return None

    def level(self, form):
        """How tightly a form binds."""
        if self.range(form):
            return "Range"
        if form.kind == "BinaryOp":
            sign = self.sign(form)
            return "Unambiguous" if sign is None else SIGNS.get(sign, "Assign")
        return KINDS.get(form.kind, "Unambiguous")

    def sign(self, form):
        """The operator, or None."""
        if form.parts[0] != "-":
            return form.parts[0]
        node = self.node(form)
        return node.get("op") if node else "-"

    @staticmethod
    def needs_parentheses(outer, own):
        """Whether a form stands in parentheses in another."""
        if outer is None or outer == "Unambiguous" or (outer == own and own in ("LOr", "LAnd")):
            return False
        around, inside = LEVELS[outer], LEVELS[own]
        if outer == "Postfix":
            return inside < around
        if outer == "Prefix":
            return LEVELS["Jump"] < inside < around
        return inside <= around

    # expressions

    def expr(self, form, outer=None):
        """An expression."""
        own = self.level(form)
        needed = self.needs_parentheses(outer, own)
        if needed:
            self.out.write("(")
        span = self.range(form)
        if span:
            self.ends(*span, own)
        else:
            getattr(self, "expr_" + form.kind)(form, own, *form.parts)
        if needed:
            self.out.write(")")

    def optional(self, front, form, outer=None):
        """An expression behind a text, where it is there."""
        if form is not None:
            self.out.write(front)
            self.expr(form, outer)

    def ends(self, sign, start, end, outer):
        """A range, or a pattern of one."""
        self.optional("", start, outer)
        self.out.write(sign)
        self.optional("", end, outer)

    def lines(self, opening, writers, closing, end=","):
        """Parts on lines of their own between two signs; nothing between where there are none."""
        def write():
            for writer in writers:
                writer()
                self.out.write(end)
                self.out.newline()

        self.out.write(opening)
        self.out.indented(write)
        self.out.write(closing)

    def args(self, forms):
        """Arguments of a call."""
        if forms:
            self.lines("(", [lambda form=form: self.expr(form) for form in forms], ")")
        else:
            self.out.write("()")

    def label(self, key):
        """A label by its name."""
        return self.name(self.listed.labels[key])

    def expr_Missing(self, _, _own):
        """What is missing."""
        self.out.write(BAD)

    def expr_Underscore(self, _, _own):
        """`_`."""
        self.out.write("_")

    def expr_IncludeBytes(self, _, _own):
        """The bytes of a file."""
        self.out.write("include_bytes!(_)")

    def expr_OffsetOf(self, _, _own, kind, names):
        """The place of a field."""
        self.out.write("builtin#offset_of(")
        self.type(kind)
        self.out.write(", " + ".".join(map(self.name, names)) + ")")

    def expr_Path(self, _, _own, path):
        """A path."""
        self.path(path)

    def expr_If(self, _, _own, condition, then, other):
        """A branch."""
        self.optional("if ", condition)
        self.optional(" ", then)
        self.optional(" else ", other)

    def expr_Let(self, _, own, pattern, value):
        """A condition that binds."""
        self.out.write("let ")
        self.pat(pattern)
        self.optional(" = ", value, own)

    def expr_Loop(self, _, _own, body, label, _source):
        """A loop."""
        self.out.write(f"{self.label(label)}: loop " if label else "loop ")
        self.expr(body)

    def expr_Call(self, _, own, callee, args):
        """A call."""
        self.expr(callee, own)
        self.args(args)

    def expr_MethodCall(self, _, own, receiver, name, arguments, args):
        """A call of a method."""
        self.expr(receiver, own)
        self.out.write("." + self.name(name))
        self.arguments(arguments)
        self.args(args)

    def expr_Match(self, _, _own, value, arms):
        """A match, each arm on lines of its own."""
        self.optional("match ", value)
        self.lines(" {", [lambda arm=arm: self.arm(*arm.parts) for arm in arms], "}")
        self.out.newline()

    def arm(self, pattern, guard, value):
        """An arm."""
        self.pat(pattern)
        self.optional(" if ", guard)
        self.optional(" => ", value)

    def expr_Continue(self, _, own, label):
        """A jump to the next turn."""
        self.jump("continue", label, None, own)

    def expr_Break(self, _, own, label, value):
        """A jump out."""
        self.jump("break", label, value, own)

    def jump(self, words, label, value, own):
        """A jump with its label and its value."""
        self.out.write(words + (f" {self.label(label)}" if label else ""))
        if value is not None:
            self.out.space()
            self.expr(value, own)

    def expr_Return(self, form, own, value):
        """A jump without a label."""
        self.jump(JUMPS[form.kind], None, value, own)

    expr_Yield = expr_Yeet = expr_Become = expr_Return

    def expr_RecordLit(self, _, _own, path, fields, spread):
        """A record."""
        def write():
            for name, value in fields:
                self.out.write(self.name(name) + ": ")
                self.expr(value)
                self.out.write(",")
                self.out.newline()
            if spread is not None:
                self.out.write("..")
                self.optional("", None if spread == ".." else spread)
                self.out.newline()

        self.path(path)
        self.out.write("{")
        self.out.indented(write)
        self.out.write("}")

    def expr_Field(self, _, own, value, name):
        """A field."""
        self.expr(value, own)
        self.out.write("." + self.name(name))

    def expr_Await(self, _, own, value):
        """What is waited for."""
        self.expr(value, own)
        self.out.write(".await")

    def expr_Cast(self, _, own, value, kind):
        """A cast."""
        self.expr(value, own)
        self.out.write(" as ")
        self.type(kind)

    def expr_Ref(self, _, own, kind, mutable, value):
        """A borrow."""
        self.out.write("&" + ("raw " if kind == "raw" else "") + ("mut " if mutable == "mut" else ""))
        self.expr(value, own)

    def expr_UnaryOp(self, _, own, sign, value):
        """An operator in front."""
        self.out.write(sign)
        self.expr(value, own)

    def expr_BinaryOp(self, form, own, _sign, left, right):
        """An operator between, which may be absent."""
        self.expr(left, own)
        self.out.space()
        self.out.write(self.sign(form) or BAD)
        self.out.space()
        self.expr(right, own)

    def expr_Index(self, _, own, base, index):
        """An index."""
        self.expr(base, own)
        self.out.write("[")
        self.expr(index)
        self.out.write("]")

    def expr_Closure(self, _, _own, kind, capture, params, answer, body):
        """A closure, or a coroutine, which upstream prints as the block or the closure that it was."""
        family, _, rest = kind.partition(":")
        if family == "old" and rest == "static":
            self.out.write("static ")
        elif family in ("co", "coclosure"):
            self.out.write(WORDS[rest.split(":")[0]])
        if family == "coclosure" and body.kind == "Closure":
            body = body.parts[4]
        self.out.write("move " if capture == "move" else "")
        if family != "co":
            self.closure_head(params, answer)
        self.expr(body)

    def closure_head(self, params, answer):
        """The parameters and the answer of a closure."""
        self.out.write("|")
        for at, (pattern, kind) in enumerate(params):
            self.out.write(", " if at else "")
            self.pat(pattern)
            if kind is not None:
                self.out.write(": ")
                self.type(kind)
        self.out.write("|")
        if answer is not None:
            self.out.write(" -> ")
            self.type(answer)
        self.out.space()

    def expr_Tuple(self, _, _own, parts):
        """A tuple: a comma and a space behind each part."""
        self.out.write("(")
        self.with_commas(parts, self.expr)
        self.out.write(")")

    def with_commas(self, parts, write):
        """Parts with a comma behind each."""
        for part in parts:
            write(part)
            self.out.write(", ")

    def expr_Array(self, _, _own, parts):
        """An array on lines of its own."""
        self.out.write("[")
        if parts:
            self.out.indented(lambda: self.with_commas(parts, self.expr))
            self.out.newline()
        self.out.write("]")

    def expr_Repeat(self, _, _own, value, count):
        """A repetition on lines of its own."""
        def write():
            self.expr(value)
            self.optional("; ", count)

        self.out.write("[")
        self.out.indented(write)
        self.out.newline()
        self.out.write("]")

    def expr_Literal(self, form, _own, literal):
        """A literal by its kind, which the node tells."""
        node = self.node(form)
        while node and "lit" in node and not isinstance(node["lit"], str):
            node = self.nodes[node["lit"]]
        self.out.write(self.c_string(node) if node.get("lit") == "cstr" else self.literal(node.get("lit"), literal))

    def c_string(self, node):
        """A C string by the text that was written, since a document doesn't tell bytes that are no UTF-8 from characters."""
        written = self.text[node["r"][0]:node["r"][1]].decode("utf-8", "replace")
        token = written[re.search(r'c(r#*)?"', written).start():]
        return '"' + escaped_bytes(quoted(token, "cr", "c")) + '\\0"'

    def literal(self, kind, literal):
        """The text of a literal of a kind."""
        if literal.value is None:
            return self.number(literal.raw) if kind == "int" else literal.raw
        if kind == "char":
            return "'" + escaped(literal.value, "'\"") + "'"
        if kind == "bytestr":
            return '"' + escaped_bytes(ord(char) & 255 for char in literal.value) + '"'
        return '"' + escaped(literal.value, '"') + '"'

    @staticmethod
    def number(raw):
        """An integer; without the suffix of one without sign it has 128 bits with a sign."""
        digits = raw.lstrip("-")
        end = next((at for at, char in enumerate(digits) if not char.isdigit()), len(digits))
        value, suffix = int(digits[:end]), digits[end:]
        if suffix not in UNSIGNED:
            value = (value + 2**127) % 2**128 - 2**127
        return ("-" if raw.startswith("-") else "") + str(value) + (suffix if suffix in INTS else "")

    def expr_Block(self, _, _own, unsafe, label, _number, stmts, tail):
        """A block on lines of its own."""
        def write():
            for stmt in stmts:
                self.stmt(stmt)
            self.optional("", tail)
            self.out.newline()

        self.out.space()
        self.out.write("unsafe {" if unsafe else f"{self.label(label)}: {{" if label else "{")
        if stmts or tail is not None:
            self.out.indented(write)
        self.out.write("}")

    def expr_Const(self, _, _own, _inner):
        """A `const` block, of which upstream prints no content."""
        self.out.write("const { /* _ */ }")

    def expr_Assignment(self, _, own, target, value):
        """An assignment."""
        self.pat(target)
        self.optional(" = ", value, own)

    def stmt(self, form):
        """A statement; items aren't printed."""
        if form.kind == "LetStmt":
            pattern, kind, value, other = form.parts
            self.out.write("let ")
            self.pat(pattern)
            if kind is not None:
                self.out.write(": ")
                self.type(kind)
            self.optional(" = ", value)
            self.optional(" else ", other)
            self.out.write(";")
            self.out.newline()
        elif form.kind in ("Semi", "Expr"):
            self.expr(form.parts[0])
            self.out.write(";" if form.kind == "Semi" else "")
            self.out.newline()
