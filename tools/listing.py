"""Reads a listing of mode `body` or `fn` back, as docs/LISTING.md describes it.

A form becomes a `Form`, a path a `Path`. Types, arguments and bounds are tuples that begin with a word:

    types       never, error, infer · tuple TYPES · path PATH · param TEXT · pointer WORD TYPE · reference LIFETIME MUT TYPE
                slice TYPE · array TYPE FORM · function BINDER UNSAFE ABI PARAMETERS VARIADIC TYPE · impl BOUNDS · dyn BOUNDS
                pattern TYPE FORM
    arguments   self TYPE · type TYPE · lifetime TEXT · const FORM · binding NAME ARGUMENTS TYPE BOUNDS
    bounds      error · lifetime TEXT · use TEXTS · path MAYBE BINDER PATH
"""
import re
from collections import namedtuple

EXPR = {
    "Missing": "", "Path": "path", "If": "expr expr expr", "Let": "pat expr", "Block": "word word word stmts expr", "Const": "expr",
    "Loop": "expr word word", "Call": "expr exprs", "MethodCall": "expr word arguments exprs", "Match": "expr arms", "Continue": "word",
    "Break": "word expr", "Return": "expr", "Become": "expr", "Yield": "expr", "Yeet": "expr", "RecordLit": "path fields spread",
    "Field": "expr word", "Await": "expr", "Cast": "expr type", "Ref": "word word expr", "UnaryOp": "sign expr",
    "BinaryOp": "sign expr expr", "Assignment": "pat expr", "Closure": "word word params type expr", "Tuple": "exprs", "Array": "exprs",
    "Repeat": "expr expr", "Literal": "literal", "Index": "expr expr", "Underscore": "", "OffsetOf": "type words", "IncludeBytes": "",
}
STMT = {"LetStmt": "pat type expr expr", "Expr": "expr", "Semi": "expr", "Item": "", "MacroDef": "word"}
PAT = {
    "Missing": "", "Wild": "", "Rest": "", "NotNull": "", "Bind": "word pat", "Path": "path", "TupleStruct": "path word pats",
    "Tuple": "word pats", "Record": "path field_pats word", "Or": "pats", "Slice": "pats pat pats", "Ref": "word pat", "Box": "pat",
    "Deref": "pat", "Lit": "expr", "Range": "word expr expr", "Expr": "expr",
}
ARM = {"Arm": "pat expr expr"}
TABLES = {"expr": EXPR, "stmt": STMT, "pat": PAT, "arm": ARM}
# Types and patterns that are one sign wherever they are written.
SIGN_TYPES = {"never": "!", "error": "{error}", "infer": "_"}
SIGN_PATS = {"Wild": "_", "Rest": "..", "NotNull": "!null"}
HEAD = re.compile(r"(?:[ro]\d+=)*\((\w+)(@)?(?:(?:(\d+)\.)?(\d+))?(?=[ )])")
WORD = re.compile(r"[^\s()\[\]]+")
NAME = re.compile(r"\?|[^\s()\[\]{}<>:,;!=+&*|'\"?]+")
LIFETIME = re.compile(r"'(?:\{error\}|[^\s:<>(){}\[\],;!=+&*|]*)")
MAYBE = re.compile(r"\?(?=[^\s()\[\]{}:>,;!=+&*|'\"]|::(?!<))")
CRATE = re.compile(r"\$crate\(\d+\)")
FUNCTION = re.compile(r'(?:for<[^>]*> )?(?:unsafe )?(?:extern "[^"]*" )?fn\(')
PARAMETER = re.compile(r"([^\s:<>(){}\[\],;!=+&*|']+): ")

Path = namedtuple("Path", "front anchor segments hygiene")      # front: empty, `::`, `crate`, `self`, `super::super`, `$crate(1)` or `lang`
Segment = namedtuple("Segment", "name arguments")               # arguments: None, `(..)` or a list
Literal = namedtuple("Literal", "raw value suffix")             # value: the text between the quotes, or None
Binding = namedtuple("Binding", "name mode problem owner")


class Form:
    """A stored form: its group (expr, pat, stmt or arm), kind, the file and node that it came from, and its parts."""

    __slots__ = ("group", "kind", "file", "node", "parts")

    def __init__(self, group, kind, file, node, parts):
        self.group, self.kind, self.file, self.node, self.parts = group, kind, file, node, parts

    def is_kind(self, group, kind):
        """Whether it is of this group and kind."""
        return self.group == group and self.kind == kind


class ListingError(Exception):
    """What stands there is no listing."""


class Reader:
    """Reads from a place on; each method takes what it is named after and moves on behind that."""

    def __init__(self, text):
        self.text, self.at = text, 0

    def fail(self, what):
        """Raises, with the place."""
        raise ListingError(f"no {what} at {self.at}: {self.text[self.at:self.at + 40]!r}")

    def sees(self, words):
        """Whether these come next."""
        return self.text.startswith(words, self.at)

    def eat(self, words):
        """Takes these where they come next, and answers whether they did."""
        if self.sees(words):
            self.at += len(words)
            return True
        return False

    def need(self, words):
        """Takes these, which have to come next."""
        if not self.eat(words):
            self.fail(repr(words))

    def match(self, pattern, what=None):
        """Takes what a pattern matches, or None; where it has a name it has to be there."""
        found = pattern.match(self.text, self.at)
        if found:
            self.at = found.end()
        elif what:
            self.fail(what)
        return found

    def absent(self):
        """Takes the sign of an absent part."""
        if self.sees("-") and self.text[self.at + 1:self.at + 2] in (" ", ")", "]", "\n", ""):
            self.at += 1
            return True
        return False

    def separated(self, one, close, between=", "):
        """A list up to `close`."""
        out = []
        while not self.eat(close):
            if out:
                self.need(between)
            out.append(one())
        return out

    def listed(self, one):
        """A list in brackets."""
        self.need("[")
        return self.separated(one, "]", " ")

    def pair(self, one, other):
        """Two parts in parentheses."""
        self.need("(")
        left = one()
        self.need(" ")
        right = other()
        self.need(")")
        return left, right

    # forms

    def form(self, group):
        """A form of a group."""
        found = self.match(HEAD, group)
        kind, table = found[1], TABLES[group]
        if kind not in table:
            self.fail(f"{group} {kind}")
        parts = []
        for part in table[kind].split():
            self.need(" ")
            parts.append(getattr(self, part)())
        self.need(")")
        return Form(group, kind, int(found[3] or 0), int(found[4]) if found[2] else None, parts)

    def expr(self):
        """An expression, or None."""
        return None if self.absent() else self.form("expr")

    def pat(self):
        """A pattern, or None."""
        return None if self.absent() else self.form("pat")

    def exprs(self):
        """Expressions in brackets."""
        return self.listed(self.expr)

    def pats(self):
        """Patterns in brackets."""
        return self.listed(self.pat)

    def stmts(self):
        """Statements in brackets."""
        return self.listed(lambda: self.form("stmt"))

    def arms(self):
        """Arms in brackets."""
        return self.listed(lambda: self.form("arm"))

    def plain(self):
        """A word."""
        return self.match(WORD, "word")[0]

    def word(self):
        """A word, or None."""
        return None if self.absent() else self.plain()

    def words(self):
        """Words in brackets."""
        return self.listed(self.plain)

    def sign(self):
        """An operator; `-` is minus, or none, which the node tells."""
        return self.plain()

    def fields(self):
        """Names with expressions."""
        return self.listed(lambda: self.pair(self.plain, self.expr))

    def field_pats(self):
        """Names with patterns."""
        return self.listed(lambda: self.pair(self.plain, self.pat))

    def params(self):
        """Patterns with types, of a closure."""
        return self.listed(lambda: self.pair(self.pat, self.type))

    def spread(self):
        """What stands behind the fields of a record."""
        return ".." if self.eat("..") else self.expr()

    def literal(self):
        """A value between quotes with its suffix, or a word."""
        start, value = self.at, None
        if self.eat('"'):
            value = []
            while not self.eat('"'):
                self.eat("\\")
                value.append(self.text[self.at:self.at + 1] or self.fail("end of a text"))
                self.at += 1
        end = self.at
        self.match(re.compile(r"[^\s()\[\]]*"))
        return Literal(self.text[start:self.at], None if value is None else "".join(value), self.text[end:self.at])

    # paths

    def path(self):
        """Where a path begins, and its names with their arguments."""
        if self.eat("lang:"):
            return Path("lang", None, [Segment(self.match(NAME, "name")[0], None)], "")
        anchor, front = None, ""
        if self.eat("<"):
            anchor = self.required_type()
            self.need(">")
        else:
            front = self.path_front()
        segments = []
        if front == "::" and not NAME.match(self.text, self.at + 2):
            self.need("::")     # no name stands behind
        while (not segments and not front and anchor is None) or self.next_name():
            segments.append(Segment(self.match(NAME, "name")[0], self.arguments_here()))
        found = self.match(re.compile(r"!\d+"))
        return Path(front, anchor, segments, found[0] if found else "")

    def path_front(self):
        """The words at which a path begins, or nothing."""
        found = self.match(CRATE) or self.match(re.compile(r"(crate|self|super(::super)*)(?![^\s:()\[\]<>,;!=+])"))
        return found[0] if found else "::" if self.sees("::") else ""

    def next_name(self):
        """Takes the colons in front of another name."""
        return not self.sees("::<") and not self.sees("::(..)") and self.eat("::")

    def arguments_here(self):
        """The arguments that follow at once, or None."""
        if self.eat("::(..)"):
            return "(..)"
        return self.separated(self.argument, ">") if self.eat("::<") else None

    def arguments(self):
        """The arguments of a method, which may be absent."""
        return None if self.absent() else self.arguments_here()

    def argument(self):
        """One argument. A form that isn't told from a type by its kind has a place, a mark or a part."""
        if self.eat("Self = "):
            return "self", self.required_type()
        if self.sees("'"):
            return "lifetime", self.lifetime()
        found = HEAD.match(self.text, self.at)
        if found and found[1] in EXPR and (found[2] or self.text[self.at] != "(" or self.text[found.end()] == " " or not EXPR[found[1]]):
            return "const", self.form("expr")
        return self.binding() or ("type", self.required_type())

    def binding(self):
        """`N = T` or `N: B + B`, or None where that isn't what comes next."""
        begin, name = self.at, self.match(NAME)
        arguments = self.arguments_here() if name else None
        if not name or not (self.sees(" = ") or self.sees(": ")):
            self.at = begin
            return None
        bound = self.required_type() if self.eat(" = ") else None
        return "binding", name[0], arguments, bound, self.bounds() if self.eat(": ") else []

    def lifetime(self):
        """A lifetime."""
        return self.match(LIFETIME, "lifetime")[0]

    def lifetime_or_name(self):
        """Either of both."""
        return self.lifetime() if self.sees("'") else self.match(NAME, "name")[0]

    def bounds(self):
        """Bounds with a plus between them."""
        out = [self.bound()]
        while self.eat(" + "):
            out.append(self.bound())
        return out

    def bound(self):
        """One bound."""
        if self.eat("{error}"):
            return ("error",)
        if self.sees("'"):
            return "lifetime", self.lifetime()
        if self.eat("use<"):
            return "use", self.separated(self.lifetime_or_name, ">")
        binder = self.binder()
        return "path", self.match(MAYBE) is not None, binder, self.path()

    def binder(self):
        """The lifetimes of a binder, or None."""
        if not self.eat("for<"):
            return None
        lifetimes = self.separated(self.lifetime_or_name, ">")
        self.need(" ")
        return lifetimes

    # types

    def type(self):
        """A type, or None."""
        return None if self.absent() else self.required_type()

    def required_type(self):
        """A type."""
        made = self.plain_type()
        while self.eat(" is "):
            made = "pattern", made, self.form("pat")
        return made

    def plain_type(self):
        """A type without a pattern behind it."""
        for kind in ("never", "error"):
            if self.eat(SIGN_TYPES[kind]):
                return (kind,)
        if self.match(re.compile(r"_(?![\w:])")):
            return ("infer",)
        for words in ("*const ", "*mut "):
            if self.eat(words):
                return "pointer", words[1:-1], self.required_type()
        if self.eat("&"):
            return self.reference()
        if self.eat("["):
            return self.array()
        if self.eat("("):
            return "tuple", self.separated(self.required_type, ")")
        if FUNCTION.match(self.text, self.at):
            return self.function()
        found = self.match(re.compile(r"(impl|dyn)(?=[ )\],>\n]|$)"))
        if found:
            return found[0], self.bounds() if self.match(re.compile(r" (?!is |-|\(|=|\+)")) else []
        found = self.match(re.compile(r"Param\[\d+\]"))
        return ("param", found[0]) if found else ("path", self.path())

    def reference(self):
        """A reference, behind its sign."""
        lifetime = None
        if self.sees("'"):
            lifetime = self.lifetime()
            self.need(" ")
        return "reference", lifetime, self.eat("mut "), self.required_type()

    def array(self):
        """An array or a slice, behind the bracket."""
        element = self.required_type()
        if self.eat("]"):
            return "slice", element
        self.need("; ")
        length = self.form("expr")
        self.need("]")
        return "array", element, length

    def function(self):
        """A pointer to a function."""
        binder, unsafe, abi = self.binder(), self.eat("unsafe "), "Rust"
        if self.eat('extern "'):
            abi = self.match(re.compile(r'[^"]*'))[0]
            self.need('" ')
        self.need("fn(")
        parameters = self.separated(self.parameter, ")")
        self.need(" -> ")
        variadic = bool(parameters) and parameters[-1] is None
        return "function", binder, unsafe, abi, parameters[:-1] if variadic else parameters, variadic, self.required_type()

    def parameter(self):
        """Name and type of a parameter, or None for three dots."""
        if self.eat("..."):
            return None
        name = self.match(PARAMETER)
        return name[1] if name else None, self.required_type()


class Names:
    """The lines of bindings and labels, expansions and diagnostics."""

    def __init__(self):
        self.bindings, self.labels, self.expansions, self.diagnostics = {}, {}, [], []

    def line(self, words):
        """Notes one line."""
        kind, *rest = words.split(" ")
        if kind == "binding":
            self.bindings["#" + rest[0]] = Binding(" ".join(rest[1:-3]), *rest[-3:])
        elif kind == "label":
            self.labels["L" + rest[0]] = rest[1]
        elif kind == "expansion":
            self.expansions.append(rest)
        elif kind == "diag":
            place = rest.pop() if rest[-1].startswith("@") else ""
            self.diagnostics.append((rest[0], " ".join(rest[1:]), place))
        elif words:
            raise ListingError(f"no line: {words[:60]!r}")


class Body(Names):
    """A listing of mode `body` or `pat`: what `self` is bound by, the parameters, the body, and the names."""

    def __init__(self, text):
        super().__init__()
        reader = Reader(text)
        self.receiver, self.params, self.body = None, [], None
        while reader.at < len(text):
            if reader.eat("self "):
                self.receiver = reader.plain()
            elif reader.eat("param "):
                self.params.append(reader.pat())
            elif reader.eat("body "):
                self.body = reader.expr()
            else:
                self.line(reader.match(re.compile("[^\n]*"))[0])
            reader.need("\n")


class Signature(Names):
    """A listing of mode `fn`: lifetimes, parameters, predicates, arguments and the answer."""

    def __init__(self, text):
        super().__init__()
        self.lifetimes, self.params, self.where, self.args = [], [], [], []
        self.receiver, self.variadic, self.answer = False, False, None
        reader = Reader(text)
        while reader.at < len(text):
            word = reader.match(re.compile(r"(lifetime|type|const|where|self|arg|variadic|ret)(?=[ \n]) ?"))
            if word:
                getattr(self, "read_" + word[1])(reader)
            else:
                self.line(reader.match(re.compile("[^\n]*"))[0])
            reader.need("\n")

    def read_lifetime(self, reader):
        """A lifetime, and whether it is early or late."""
        name = reader.plain()
        reader.need(" ")
        self.lifetimes.append((name, reader.plain()))

    def read_type(self, reader):
        """A type, from the list or an `impl`, with its default."""
        number, name, origin = (reader.match(re.compile(r"(\S+) ?"), "word")[1] for _ in range(3))
        default = reader.required_type() if reader.eat("= ") else None
        self.params.append(("type", number, name, origin, default))

    def read_const(self, reader):
        """A constant, with its type and its default."""
        number, name = (reader.match(re.compile(r"(\S+) "), "word")[1] for _ in range(2))
        kind = reader.required_type()
        default = reader.form("expr") if reader.eat(" = ") else None
        self.params.append(("const", number, name, kind, default))

    def read_where(self, reader):
        """A binder in front is taken for the predicate's, also where it is a function pointer's."""
        binder = reader.binder()
        target = ("lifetime", reader.lifetime()) if reader.sees("'") else reader.required_type()
        reader.need(": ")
        self.where.append((binder, target, reader.bound()))

    def read_self(self, _):
        """There is a `self`."""
        self.receiver = True

    def read_arg(self, reader):
        """The type of an argument."""
        self.args.append(reader.required_type())

    def read_variadic(self, _):
        """There are three dots behind the arguments."""
        self.variadic = True

    def read_ret(self, reader):
        """The type of the answer."""
        self.answer = reader.type()
