"""Writes what was read of a listing again, so that nothing is lost where it is read."""
import re

import listing

# What is not read back as such: the marks of roots and owners, and sources.
MARKS = re.compile(r"\b[ro]\d+=(?=[ro(])|(?<=\w)@(?:\d+\.)?\d+(?=[ )\n])")


def bare(text):
    """A text without marks and sources, in literals too: so it is compared with another such text alone."""
    return MARKS.sub("", text)


class Writer:
    """Writes forms, paths and types as a listing does. Each method is named after a part in the tables of `listing`."""

    def form(self, form):
        """A form with its parts."""
        parts = listing.TABLES[form.group][form.kind].split()
        return "(" + " ".join([form.kind, *(getattr(self, part)(value) for part, value in zip(parts, form.parts))]) + ")"

    def expr(self, form):
        """A form that may be absent."""
        return "-" if form is None else self.form(form)

    pat = expr

    def exprs(self, forms):
        """Forms in brackets."""
        return "[" + " ".join(map(self.expr, forms)) + "]"

    pats = stmts = arms = exprs

    def word(self, text):
        """A word that may be absent."""
        return "-" if text is None else text

    sign = word

    def words(self, texts):
        """Words in brackets."""
        return "[" + " ".join(texts) + "]"

    def fields(self, pairs):
        """Names with forms."""
        return "[" + " ".join(f"({name} {self.expr(form)})" for name, form in pairs) + "]"

    field_pats = fields

    def params(self, pairs):
        """Patterns with types."""
        return "[" + " ".join(f"({self.expr(pattern)} {self.type(kind)})" for pattern, kind in pairs) + "]"

    def spread(self, value):
        """What stands behind fields."""
        return value if value == ".." else self.expr(value)

    def literal(self, literal):
        """A literal as it stood there."""
        return literal.raw

    def path(self, path):
        """A path."""
        if path.front == "lang":
            return "lang:" + path.segments[0].name
        front = path.front if path.anchor is None else f"<{self.type(path.anchor)}>"
        names = [segment.name + self.given(segment.arguments) for segment in path.segments]
        if not names:
            return front + path.hygiene
        return ("::" if front == "::" else front + "::" if front else "") + "::".join(names) + path.hygiene

    def given(self, arguments):
        """Arguments behind a name, or nothing."""
        if arguments is None:
            return ""
        return "::(..)" if arguments == "(..)" else "::<" + ", ".join(self.argument(*argument) for argument in arguments) + ">"

    def arguments(self, arguments):
        """The arguments of a method."""
        return self.given(arguments) or "-"

    def argument(self, kind, *parts):
        """One argument."""
        if kind in ("self", "type"):
            return ("Self = " if kind == "self" else "") + self.type(parts[0])
        if kind == "const":
            return self.form(parts[0])
        if kind == "lifetime":
            return parts[0]
        name, arguments, bound, bounds = parts
        return name + self.given(arguments) + (f" = {self.type(bound)}" if bound else "") + (f": {self.bounds(bounds)}" if bounds else "")

    def bounds(self, bounds):
        """Bounds with a plus between them."""
        return " + ".join(self.bound(*bound) for bound in bounds)

    def bound(self, kind, *parts):
        """One bound."""
        if kind in ("error", "lifetime"):
            return parts[0] if parts else "{error}"
        if kind == "use":
            return f"use<{', '.join(parts[0])}>"
        maybe, binder, path = parts
        return self.binder(binder) + ("?" if maybe else "") + self.path(path)

    def binder(self, binder):
        """A binder, or nothing."""
        return "" if binder is None else f"for<{', '.join(binder)}> "

    def type(self, kind):
        """A type that may be absent."""
        if kind is None:
            return "-"
        return listing.SIGN_TYPES.get(kind[0]) or getattr(self, "type_" + kind[0])(*kind[1:])

    def type_tuple(self, parts):
        """A tuple."""
        return "(" + ", ".join(map(self.type, parts)) + ")"

    def type_path(self, path):
        """A path."""
        return self.path(path)

    def type_param(self, text):
        """A parameter without a name."""
        return text

    def type_pointer(self, mutable, inner):
        """A raw pointer."""
        return f"*{mutable} {self.type(inner)}"

    def type_reference(self, lifetime, mutable, inner):
        """A reference."""
        return "&" + (f"{lifetime} " if lifetime is not None else "") + ("mut " if mutable else "") + self.type(inner)

    def type_slice(self, element):
        """A slice."""
        return f"[{self.type(element)}]"

    def type_array(self, element, length):
        """An array."""
        return f"[{self.type(element)}; {self.form(length)}]"

    def type_function(self, binder, unsafe, abi, parameters, variadic, answer):
        """A pointer to a function."""
        front = self.binder(binder) + ("unsafe " if unsafe else "") + (f'extern "{abi}" ' if abi != "Rust" else "")
        parts = [(f"{name}: " if name else "") + self.type(kind) for name, kind in parameters] + (["..."] if variadic else [])
        return f"{front}fn({', '.join(parts)}) -> {self.type(answer)}"

    def type_impl(self, bounds):
        """What satisfies bounds."""
        return "impl" + (" " + self.bounds(bounds) if bounds else "")

    def type_dyn(self, bounds):
        """An object."""
        return "dyn" + (" " + self.bounds(bounds) if bounds else "")

    def type_pattern(self, kind, pattern):
        """The values of a type that fit a pattern."""
        return f"{self.type(kind)} is {self.form(pattern)}"


def body(read):
    """The lines of parameters and body."""
    writer = Writer()
    lines = [f"self {read.receiver}"] if read.receiver else []
    lines += ["param " + writer.expr(param) for param in read.params]
    return lines + (["body " + writer.expr(read.body)] if read.body is not None else [])


def signature(read):
    """The lines of a signature."""
    writer = Writer()
    lines = [f"lifetime {name} {bound}" for name, bound in read.lifetimes]
    for kind, number, name, more, default in read.params:
        written = writer.form(default) if kind == "const" and default else writer.type(default)
        shown = writer.type(more) if kind == "const" else more
        lines.append(f"{kind} {number} {name} {shown}" + (f" = {written}" if default is not None else ""))
    for binder, target, bound in read.where:
        shown = target[1] if target[0] == "lifetime" else writer.type(target)
        lines.append(f"where {writer.binder(binder)}{shown}: {writer.bound(*bound)}")
    lines += ["self"] if read.receiver else []
    lines += ["arg " + writer.type(kind) for kind in read.args] + (["variadic"] if read.variadic else [])
    return [*lines, "ret " + writer.type(read.answer)]
