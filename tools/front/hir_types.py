"""Prints names, paths, types, bounds and patterns as upstream does."""
from listing import SIGN_PATS, SIGN_TYPES

KEYWORDS = frozenset("""
    as break const continue else enum extern false fn for if impl in let loop match mod move mut pub ref return static
    struct trait true type unsafe use where while async await dyn gen abstract become box do final macro override priv
    typeof unsized virtual yield try
""".split())
LANG = {
    "IntoIterIntoIter": "into_iter", "IteratorNext": "next", "OptionSome": "Some", "OptionNone": "None", "TryTraitBranch": "branch",
    "ControlFlowContinue": "Continue", "ControlFlowBreak": "Break", "TryTraitFromOutput": "from_output",
    "TryTraitFromResidual": "from_residual", "ResidualIntoTryType": "residual_into_try_type", "RangeMin": "RANGE_MIN",
    "RangeMax": "RANGE_MAX", "RangeSub": "range_sub",
}
MODES = {"plain": "", "mut": "mut ", "ref": "ref ", "refmut": "ref mut "}
MISSING = "[missing name]"
INNER = "Shift"         # how tightly upstream takes an expression in a pattern to be bound


class HirPatterns:
    """Prints patterns. `expr`, `path` and the others are those of whoever prints the rest."""

    def pat(self, form):
        """A pattern."""
        if form.kind in SIGN_PATS:
            self.out.write(SIGN_PATS[form.kind])
        else:
            getattr(self, "pat_" + form.kind)(*form.parts)

    def binding(self, key):
        """A binding with how it is bound."""
        bound = self.listed.bindings[key]
        self.out.write(MODES[bound.mode] + self.name(bound.name))

    def pat_Missing(self):
        """What is missing."""
        self.out.write("\ufffd")

    def between(self, parts, separator, dots=None, sign=""):
        """Patterns with a text between them, and the two dots at their place in front of a part."""
        for at, part in enumerate(parts):
            self.out.write(separator if at else "")
            self.out.write(sign if dots == str(at) else "")
            self.pat(part)

    def pat_Tuple(self, dots, parts):
        """A tuple."""
        self.out.write("(")
        self.between(parts, ", ", dots, ".., ")
        self.out.write(")")

    def pat_TupleStruct(self, path, dots, parts):
        """A tuple behind a path."""
        self.path(path)
        self.out.write("(")
        self.between(parts, ", ", dots, ", ..")
        self.out.write(")")

    def pat_Or(self, parts):
        """Alternatives."""
        self.out.write("(")
        self.between(parts, " | ")
        self.out.write(")")

    def pat_Record(self, path, fields, dots):
        """A record on lines of its own; a plain binding of a field's name stands for both."""
        def write():
            for name, part in fields:
                self.out.write(self.name(name))
                if not self.is_shorthand(name, part):
                    self.out.write(": ")
                    self.pat(part)
                self.out.write(",")
                self.out.newline()
            if dots:
                self.out.write("..")
                self.out.newline()

        self.path(path)
        self.out.write(" {")
        self.out.indented(write)
        self.out.write("}")

    def is_shorthand(self, name, part):
        """Whether a field binds its own name, plainly."""
        if part.kind != "Bind" or part.parts[1] is not None:
            return False
        bound = self.listed.bindings[part.parts[0]]
        return (bound.name, bound.mode) == (self.name(name), "plain")

    def pat_Range(self, sign, start, end):
        """A range."""
        self.ends(sign, start, end, INNER)

    def pat_Slice(self, front, middle, behind):
        """A slice: a comma and a space behind each part."""
        self.out.write("[")
        self.with_commas([*front, *([middle] if middle is not None else []), *behind], self.pat)
        self.out.write("]")

    def pat_Path(self, path):
        """A path."""
        self.path(path)

    def pat_Lit(self, inner):
        """A literal, or the place that is assigned to."""
        self.expr(inner, INNER)

    pat_Expr = pat_Lit

    def pat_Bind(self, key, inner):
        """A binding."""
        self.binding(key)
        if inner is not None:
            self.out.space()
            self.out.write("@ ")
            self.pat(inner)

    def pat_Ref(self, mutable, inner):
        """What a reference refers to."""
        self.out.write("&mut " if mutable == "mut" else "&")
        self.pat(inner)

    def pat_Box(self, inner):
        """What a box holds."""
        self.out.write("box ")
        self.pat(inner)

    def pat_Deref(self, inner):
        """What something leads to."""
        self.out.write("deref!(")
        self.pat(inner)
        self.out.write(")")


class HirTypes(HirPatterns):
    """Prints names, paths, types and bounds."""

    @staticmethod
    def name(text):
        """A name or a label, raw where it is a word of the language; one that lowering made up has a mark of its own."""
        if text == "?":
            return MISSING
        if text.startswith("$") and text[1:].isdigit():
            return f"<ra@gennew>{text[1:]}"
        if text[:1] == "'":
            return "'r#" + text[1:] if text[1:] in KEYWORDS and text != "'static" else text
        return "r#" + text if text in KEYWORDS else text

    @staticmethod
    def lifetime(text):
        """A lifetime."""
        return MISSING if text == "?" else text

    def path(self, path):
        """A path; an item of the language by its own name."""
        write = self.out.write
        if path.front == "lang":
            name = path.segments[0].name
            write(f"builtin#lang({LANG.get(name, name)})")
            return
        if path.anchor is not None:
            write("<")
            self.type(path.anchor)
            write(">::")
        elif path.front != "::":
            write("$crate" if path.front.startswith("$crate") else path.front)
        for at, segment in enumerate(path.segments):
            write("::" if at or path.front else "")
            write(self.name(segment.name))
            self.arguments(segment.arguments)

    def arguments(self, arguments):
        """Arguments behind a name, which may be absent; two dots in parentheses aren't told."""
        if arguments is None:
            return
        self.out.write("::<")
        for at, argument in enumerate([] if arguments == "(..)" else arguments):
            self.out.write(", " if at else "")
            self.argument(*argument)
        self.out.write(">")

    def argument(self, kind, *parts):
        """One argument."""
        if kind == "self":
            self.out.write("Self=")
            self.type(parts[0])
        elif kind == "type":
            self.type(parts[0])
        elif kind == "lifetime":
            self.out.write(self.lifetime(parts[0]))
        elif kind == "const":
            self.expr(parts[0], "Unambiguous")
        else:
            self.associated(*parts)

    def associated(self, name, _arguments, bound, bounds):
        """A binding in arguments; its own arguments aren't printed."""
        self.out.write(self.name(name))
        if bounds:
            self.out.write(": ")
            self.bounds(bounds)
        if bound is not None:
            self.out.write(" = ")
            self.type(bound)

    def type(self, kind):
        """A type."""
        if kind[0] in SIGN_TYPES:
            self.out.write(SIGN_TYPES[kind[0]])
        else:
            getattr(self, "type_" + kind[0])(*kind[1:])

    def types(self, kinds):
        """Types with commas between them."""
        for at, kind in enumerate(kinds):
            self.out.write(", " if at else "")
            self.type(kind)

    def type_tuple(self, parts):
        """A tuple."""
        self.out.write("(")
        self.types(parts)
        self.out.write(")")

    def type_path(self, path):
        """A path."""
        self.path(path)

    def type_param(self, text):
        """A parameter without a name."""
        self.out.write(text)

    def type_pointer(self, mutable, inner):
        """A raw pointer."""
        self.out.write(f"*{mutable} ")
        self.type(inner)

    def type_reference(self, lifetime, mutable, inner):
        """A reference."""
        self.out.write("&" + (self.lifetime(lifetime) + " " if lifetime else "") + ("mut " if mutable else ""))
        self.type(inner)

    def type_slice(self, element):
        """A slice."""
        self.out.write("[")
        self.type(element)
        self.out.write("]")

    def type_array(self, element, length):
        """An array."""
        self.out.write("[")
        self.type(element)
        self.out.write("; ")
        self.expr(length, "Unambiguous")
        self.out.write("]")

    def type_function(self, _binder, unsafe, abi, parameters, variadic, answer):
        """A pointer to a function, of which upstream prints no binder and no names."""
        self.out.write(("unsafe " if unsafe else "") + (f"extern {abi} " if abi != "Rust" else "") + "fn(")
        self.types([kind for _, kind in parameters])
        self.out.write((", ..." if parameters else "...") if variadic else "")
        self.out.write(") -> ")
        self.type(answer)

    def type_impl(self, bounds):
        """What satisfies bounds."""
        self.out.write("impl ")
        self.bounds(bounds)

    def type_dyn(self, bounds):
        """An object."""
        self.out.write("dyn ")
        self.bounds(bounds)

    def type_pattern(self, kind, pattern):
        """The values of a type that fit a pattern."""
        self.type(kind)
        self.out.write(" is ")
        self.pat(pattern)

    def bounds(self, bounds):
        """Bounds with a plus between them."""
        for at, bound in enumerate(bounds):
            self.out.write(" + " if at else "")
            self.bound(*bound)

    def bound(self, kind, *parts):
        """One bound."""
        if kind == "error":
            self.out.write("{unknown}")
        elif kind == "lifetime":
            self.out.write(self.lifetime(parts[0]))
        elif kind == "use":
            names = [self.lifetime(name) if name.startswith("'") else self.name(name) for name in parts[0]]
            self.out.write(f"use<{', '.join(names)}>")
        else:
            maybe, binder, path = parts
            self.out.write("?" if maybe else self.binder(binder))
            self.path(path)

    def binder(self, binder):
        """A binder in front of something, which may be absent."""
        return "" if binder is None else f"for<{', '.join(map(self.lifetime, binder))}> "
