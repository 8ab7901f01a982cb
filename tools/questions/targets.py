"""What is asked of assignee expressions: `target_asked` of crates/thm_enabled/specs/Own.antt.

The left of an assignment is in the list as an expression, too. Lowering reads it as an assignee alone (crates/hir_env/specs/Targets.antt),
so there are parts of which it asks nothing but what is in them. They are marked.
"""
from questions.asked import ASSIGNEE, DISABLED, REFUSED
from questions.exprs import Exprs


class Targets(Exprs):
    """Reads assignee expressions."""

    def __init__(self, document):
        super().__init__(document)
        # Whether it is read by lowering, too.
        self.is_marking = True

    def mark(self, at):
        """Marks a part of which lowering asks nothing but what is in it, whatever its condition is."""
        if self.is_marking:
            self.own_reasons[at] = ASSIGNEE

    def target(self, at, place):
        """What each path resolves to that may be an assignee, whether it is disabled or not."""
        is_disabled = (place.file, self.document.number(at)) in self.tables.disabled
        with self.leaving_out(DISABLED if is_disabled else None):
            self.target_of(at, place)

    def target_of(self, at, place):
        kind = self.document.kind(at)
        if kind == "ParenExpr":
            self.present(at, "expr", place, self.parenthesized)
        elif kind == "TupleExpr":
            self.elements_of(self.document.parts(at, "fields"), place)
        elif kind == "ArrayExpr" and not self.document.part(at, "semi"):
            self.array_target(self.document.parts(at, "elems"), place)
        elif kind == "CallExpr":
            self.called_target(at, place)
        elif kind == "RecordExpr" and self.document.part(at, "list") is not None:
            self.record_target(at, self.document.part(at, "list"), place)
        elif kind == "MacroExpr":
            entered = self.entered(at, place)
            if entered:
                self.target(*entered)
        elif kind == "PathExpr":
            self.present(at, "path", place, self.target_path)

    def entered(self, at, place):
        """The root of the expansion of a call that is an expression, and where it is read."""
        call = self.document.part(at, "call")
        return None if call is None else self.expansion(call, "expr", place)

    def parenthesized(self, at, place):
        """Two dots in parentheses are a tuple of nothing."""
        if self.is_dots(at):
            self.mark(at)
        else:
            self.target(at, place)

    # elements of tuples, arrays and calls

    def elements_of(self, parts, place):
        for part in parts:
            self.element(part, place)

    def element(self, at, place):
        """An element. A macro call is what it stands for, and two dots are no part."""
        if self.comes_to_dots(at, place):
            self.mark_dots(at, place)
        elif self.document.kind(at) == "MacroExpr":
            self.mark(at)
            entered = self.entered(at, place)
            if entered:
                self.element(*entered)
        else:
            self.target(at, place)

    def array_target(self, parts, place):
        """The elements of an array. Behind its first two dots a macro call is asked about as any other expression."""
        dots = next((index for index, part in enumerate(parts) if self.comes_to_dots(part, place)), len(parts))
        self.elements_of(parts[:dots + 1], place)
        for part in parts[dots + 1:]:
            self.target(part, place)

    def comes_to_dots(self, at, place):
        """Whether it is two dots, itself or by the calls that it stands for."""
        if self.document.kind(at) == "MacroExpr":
            entered = self.entered(at, place)
            return bool(entered) and self.comes_to_dots(*entered)
        return self.is_dots(at)

    def mark_dots(self, at, place):
        self.mark(at)
        if self.document.kind(at) == "MacroExpr":
            self.mark_dots(*self.entered(at, place))

    # tuple structs and records

    def called_target(self, at, place):
        """A tuple struct. What isn't one is a place: its arguments are in the list, but no assignees."""
        callee, arguments = self.document.part(at, "expr"), self.document.part(at, "args")
        steps = self.callee(callee, place) if callee is not None and arguments is not None else []
        if steps:
            for part, _ in steps:
                self.mark(part)
            if not self.has_meaning(*steps[-1]):
                self.reasons.update({part: REFUSED for part in arguments})
            with self.leaving_out(self.reasons.get(arguments[0]) if arguments else None):
                self.elements_of(arguments, place)
            return
        before, self.is_marking = self.is_marking, False
        with self.leaving_out(ASSIGNEE):
            self.elements_of(arguments or [], place)
        self.is_marking = before

    def callee(self, at, place):
        """The macro calls of a callee and the path expression that it is at last, each with where it is read; nothing if it is none.
        Lowering enters a call to see that, whatever its condition is."""
        if self.document.kind(at) == "PathExpr":
            return [(at, place)]
        if self.document.kind(at) == "MacroExpr" and self.document.part(at, "call") is not None and place.left:
            number = self.document.number(self.document.part(at, "call"))
            self.beside.add(f"expand {place.file} {number} {place.module} expr")
        entered = self.entered(at, place) if self.document.kind(at) == "MacroExpr" else None
        inner = self.callee(*entered) if entered else []
        return [(at, place), *inner] if inner else []

    def record_target(self, at, listed, place):
        """A record, whose spread isn't read. The list has nothing of the fields that are disabled."""
        if self.is_marking:
            self.target_records.add(listed)
            spread = self.document.part(listed, "spread")
            if spread is not None:
                self.reasons[spread] = ASSIGNEE
        with self.leaving_out(None if self.has_meaning(at, place) else REFUSED):
            for field in self.document.parts(listed, "fields"):
                if (place.file, self.document.number(field)) not in self.tables.disabled:
                    self.present(field, "expr", place, self.target)

    def target_path(self, at, place):
        names = self.names(at, place)
        if names:
            self.ask("resolve", place.module, "local", names.text())
