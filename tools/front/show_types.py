"""Paths and types as layouts."""
from listing import SIGN_TYPES

from .layout import Around, Html


class TypeWriter:
    """Writes paths and types. `name`, `expr` and `pat` are those of whoever writes forms."""

    def path(self, path):
        """A path; an item that the language itself names is underlined."""
        if path.front == "lang":
            name = path.segments[0].name
            return Html(f'<i class=lang title="an item that the language itself names">{name}</i>', len(name))
        front = path.front.removesuffix("::") if path.segments else path.front
        out = ["<", self.plain_type(path.anchor), ">"] if path.anchor is not None else [front]
        for at, segment in enumerate(path.segments):
            out += ["::" if at or path.front or path.anchor is not None else "", self.name(segment.name), self.arguments(segment.arguments)]
        return [*out, path.hygiene]

    def arguments(self, arguments):
        """Arguments behind a name, which may be absent."""
        if arguments is None:
            return ""
        if arguments == "(..)":
            return "::(..)"
        return ["::<", self.with_between(", ", [self.argument(*argument) for argument in arguments]), ">"]

    def with_between(self, between, layouts):
        """Layouts with a text between them."""
        return [[between if at else "", layout] for at, layout in enumerate(layouts)]

    def argument(self, kind, *parts):
        """One argument."""
        if kind == "self":
            return ["Self = ", self.plain_type(parts[0])]
        if kind == "type":
            return self.plain_type(parts[0])
        if kind == "const":
            return self.expr(parts[0])
        if kind == "lifetime":
            return parts[0]
        name, arguments, bound, bounds = parts
        return [self.name(name), self.arguments(arguments), [" = ", self.plain_type(bound)] if bound is not None else "",
                [": ", self.bounds(bounds)] if bounds else ""]

    def bounds(self, bounds):
        """Bounds with a plus between them."""
        return self.with_between(" + ", [self.bound(*bound) for bound in bounds])

    def bound(self, kind, *parts):
        """One bound."""
        if kind == "error":
            return "{error}"
        if kind == "lifetime":
            return parts[0]
        if kind == "use":
            return f"use<{', '.join(parts[0])}>"
        maybe, binder, path = parts
        return [self.binder(binder), "?" if maybe else "", self.path(path)]

    def binder(self, binder):
        """A binder, which may be absent."""
        return "" if binder is None else f"for<{', '.join(binder)}> "

    def type(self, kind):
        """A type, with its style; nothing where it is absent."""
        return Around("<span class=ty>", self.plain_type(kind)) if kind is not None else ""

    def plain_type(self, kind):
        """A type."""
        return SIGN_TYPES.get(kind[0]) or getattr(self, "type_" + kind[0])(*kind[1:])

    def type_tuple(self, parts):
        """A tuple."""
        return ["(", self.with_between(", ", [self.plain_type(part) for part in parts]), ")"]

    def type_path(self, path):
        """A path."""
        return self.path(path)

    def type_param(self, text):
        """A parameter without a name."""
        return text

    def type_pointer(self, mutable, inner):
        """A raw pointer."""
        return [f"*{mutable} ", self.plain_type(inner)]

    def type_reference(self, lifetime, mutable, inner):
        """A reference."""
        return ["&", f"{lifetime} " if lifetime else "", "mut " if mutable else "", self.plain_type(inner)]

    def type_slice(self, element):
        """A slice."""
        return ["[", self.plain_type(element), "]"]

    def type_array(self, element, length):
        """An array."""
        return ["[", self.plain_type(element), "; ", self.expr(length), "]"]

    def type_function(self, binder, unsafe, abi, parameters, variadic, answer):
        """A pointer to a function; the ABI of Rust isn't shown."""
        front = [self.binder(binder), "unsafe " if unsafe else "", f'extern "{abi}" ' if abi != "Rust" else "", "fn("]
        layouts = [[f"{name}: " if name else "", self.plain_type(kind)] for name, kind in parameters]
        return front + [self.with_between(", ", layouts + (["..."] if variadic else [])), ") -> ", self.plain_type(answer)]

    def type_impl(self, bounds):
        """What satisfies bounds."""
        return ["impl ", self.bounds(bounds)] if bounds else "impl"

    def type_dyn(self, bounds):
        """An object."""
        return ["dyn ", self.bounds(bounds)] if bounds else "dyn"

    def type_pattern(self, kind, pattern):
        """The values of a type that fit a pattern."""
        return [self.plain_type(kind), " is ", self.pat(pattern)]
