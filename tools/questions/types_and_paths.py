"""What types, paths and patterns ask: the rules of crates/thm_enabled/specs/Whole.antt."""
from questions.asked import ALIAS, PATS, POINTER, REFUSED, SIDE, TYPES, Asking
from questions.document import MISSING, ModPath
from questions.paths import PLAIN, Reading, crate_kind, mod_path, piece_anywhere

WORDS = {"self": ("self",), "crate": ("root", ("crate",)), "super": ("super",), "Self": ("named", "Self")}


class Types(Asking):
    """Reads types, paths and patterns. Expressions in them are read by what builds on it."""

    # types

    def type_(self, at, place):
        with self.wholly():
            self.parts(TYPES, at, place)

    def type(self, at, field, place):
        self.present(at, field, place, self.type_)

    def types(self, at, field, place):
        for part in self.document.parts(at, field):
            self.type_(part, place)

    def constant(self, at, field, place):
        self.present(at, field, place, lambda part, place: self.expr(part, "expr", place))

    def answer(self, at, field, place):
        self.present(at, field, place, lambda part, place: self.type(part, "ty", place))

    def fn_params(self, at, field, place):
        """The parameters of a function pointer, of whose patterns lowering looks for a name alone."""
        for part in self.document.parts(at, field):
            if not self.document.part(part, "variadic"):
                with self.leaving_out(POINTER):
                    self.pat(part, "pat", place)
                self.type(part, "ty", place)

    def type_call(self, at, field, place):
        self.call(at, field, "type", place, self.type_)

    def bounds(self, at, field, place):
        for part in self.document.parts(at, field):
            if self.document.part(part, "b") == "path":
                self.present(part, "ty", place, lambda bound, place: self.path(bound, "path", place))

    def impl_bounds(self, at, field, place):
        if not place.is_in_impl:
            self.bounds(at, field, place.in_impl())

    def limits(self, at, field, place):
        """The lang items of the limits that the pattern of a type lacks, which are one question."""
        self.present(at, field, place, self.limits_of)

    def limits_of(self, at, place):
        kind = self.document.kind(at)
        if kind == "OrPat":
            for part in self.document.parts(at, "pats"):
                self.limits_of(part, place)
        elif kind == "RangePat":
            ends = [self.document.part(at, field) for field in ("start", "end")]
            if None in ends or self.document.part(at, "op") == "..":
                self.ask("lang_items")
        elif kind == "MacroPat" and self.document.part(at, "call") is not None:
            entered = self.expansion(self.document.part(at, "call"), "pat", place)
            if entered:
                self.limits_of(*entered)

    # paths

    def path(self, at, field, place):
        self.present(at, field, place, self.path_)

    def path_(self, at, place):
        """A path that stands by itself, of which an alias is looked for."""
        with self.wholly():
            self.segments(at, place)
            if self.is_by_its_macro(at):
                self.local_root(self.document.number(self.document.parts(at, "segs")[0]), place)
        names = self.names(at, place)
        if place.scope == "input" and names:
            with self.leaving_out(None if self.ends_with_arguments(at) else ALIAS):
                self.ask("resolve", place.module, "module", names.text())
                found = self.tables.types.get((place.module, names))
                if isinstance(found, list):
                    self.ask("alias", found[1])

    def segments(self, at, place):
        """The segments, which are lowered from the last to the first as long as they have a meaning and count."""
        reading = Reading()
        for level in self.levels(at):
            segments = self.document.parts(level, "segs")
            for index in range(len(segments) - 1, -1, -1):
                piece = piece_anywhere(index == 0, self.piece(segments[index], place))
                is_read = not (reading.is_refused or reading.has_ended or piece[0] == "refusing")
                reading.read(self.document.part(level, "leading", False) and index == 0, piece)
                if segments[index] is not None:
                    with self.leaving_out(None if is_read else REFUSED):
                        self.segment(segments[index], place)

    def ends_with_arguments(self, at):
        """Whether its last segment has arguments, without which lowering looks for no alias."""
        last = (self.document.parts(at, "segs") or [None])[-1]
        if last is None or self.document.part(last, "seg") != "name":
            return False
        generics = self.document.part(last, "generics")
        kept = [] if generics is None else [part for part in self.document.parts(generics, "args") if self.is_kept(part)]
        return bool(kept) or self.document.part(last, "parens") is not None

    def is_kept(self, at):
        """Whether lowering keeps an argument."""
        kind = self.document.kind(at)
        if kind == "LifetimeArg":
            return self.document.part(at, "lifetime") is not None
        return kind != "AssocTypeArg" or (not self.document.part(at, "params") and self.document.part(at, "name") is not None)

    def levels(self, at):
        """The path, and the paths of the use trees around it."""
        while at is not None:
            yield at
            at = self.document.part(at, "use")

    def is_broken(self, at):
        """Whether it stands directly in a macro call, and its text lacks all of it."""
        return (self.stands_in_macro(at) and not self.document.part(at, "leading")
                and self.document.parts(at, "segs") in ([], [None]))

    def is_by_its_macro(self, at):
        """Whether it is one segment that stands directly in a macro call."""
        segments = self.document.parts(at, "segs")
        return self.stands_in_macro(at) and len(segments) == 1 and segments[0] is not None

    def stands_in_macro(self, at):
        return self.document.part(at, "in_macro", False) and self.document.part(at, "use") is None

    def local_root(self, number, place):
        """The root of the crate of the macro that a name came from, if that is local to it."""
        context = self.tables.context(place.file, number)
        self.ask("context", place.file, number)
        self.ask("outer_macro", context)
        if self.tables.is_local(context):
            self.ask("crate_root", context)

    def root(self, at, place):
        """The root of the crate that `$crate` stands for."""
        number = self.document.number_in(at, "name")
        self.ask("context", place.file, number)
        self.ask("crate_root", self.tables.context(place.file, number))

    def names(self, at, place):
        """The names of a path, or None if it has no meaning."""
        if self.is_broken(at):
            return None
        levels = [(self.document.part(level, "leading", False), self.pieces(level, place)) for level in self.levels(at)]
        names = mod_path(levels)
        if self.is_by_its_macro(at) and names and names.is_bare():
            context = self.tables.context(place.file, self.document.number(self.document.parts(at, "segs")[0]))
            if self.tables.is_local(context):
                return mod_path([*levels, (False, [("root", crate_kind(self.tables.crate_root(context)))])])
        return names

    def pieces(self, at, place):
        """The segments of a path, without the use trees around it."""
        return [self.piece(segment, place) for segment in self.document.parts(at, "segs") or [None]]

    def piece(self, at, place):
        if at is None:
            return ("named", MISSING)
        word = self.document.part(at, "seg")
        if word == "name" and self.document.text_in(at, "name") == "$crate":
            context = self.tables.context(place.file, self.document.number_in(at, "name"))
            return ("root", crate_kind(self.tables.crate_root(context)))
        if word == "name":
            name = self.document.text_in(at, "name")
            return ("refusing",) if name is None else ("named", name)
        if word != "type":
            return WORDS.get(word, ("refusing",))
        if self.document.part(at, "ty") is None:
            return ("refusing",)
        trait = self.document.part(at, "trait")
        if trait is None:
            return ("anchor",)
        path = self.document.part(trait, "path")
        return ("trait", None if path is None else self.names(path, place.in_projection()))

    def segment(self, at, place):
        word = self.document.part(at, "seg")
        if word == "name" and self.document.part(at, "name") is not None:
            if self.document.text_in(at, "name") == "$crate":
                self.root(at, place)
            else:
                self.arguments(at, place)
        elif word == "type" and self.document.part(at, "ty") is not None:
            inner = place.in_projection()
            self.type(at, "ty", inner)
            self.present(at, "trait", inner, lambda trait, place: self.path(trait, "path", place))

    def arguments(self, at, place):
        """The arguments of a segment. What is returned counts behind parentheses alone, and lowering reads these where nothing else is."""
        self.generics(at, "generics", place)
        parens = self.document.part(at, "parens")
        if parens is not None:
            with self.leaving_out(None if self.document.part(at, "generics") is None else REFUSED):
                for part in self.document.parts(parens, "args"):
                    self.type(part, "ty", place)
                self.answer(at, "ret", place)

    def generics(self, at, field, place):
        with self.wholly():
            self.present(at, field, place, self.generic_args)

    def generic_args(self, at, place):
        for part in self.document.parts(at, "args"):
            kind = self.document.kind(part)
            if kind == "TypeArg":
                self.type(part, "ty", place)
            elif kind == "ConstArg":
                self.expr(part, "expr", place)
            elif kind == "AssocTypeArg" and not self.document.part(part, "params") and self.document.part(part, "name") is not None:
                inner = place.outside_impl()
                self.generics(part, "generics", inner)
                self.type(part, "ty", inner)
                self.bounds(part, "bounds", inner)

    # patterns

    def pat_(self, at, place):
        with self.wholly():
            self.parts(PATS, at, place)

    def pat(self, at, field, place):
        self.present(at, field, place, self.pat_)

    def pats(self, at, field, place):
        for part in self.document.parts(at, field):
            self.pat_(part, place)

    def binding(self, at, _, place):
        """A name, which is looked up if nothing else stands in the pattern."""
        node = self.document
        if not (node.part(at, "ref") or node.part(at, "mut") or node.part(at, "pat") is not None):
            self.ask("resolve", place.module, "other", ModPath(PLAIN, (node.text_in(at, "name"),)).text())
        self.hygiene(at, "name", place)
        self.pat(at, "pat", place)

    def side(self, at, field, place):
        """A limit of a range, which lowering reads where it is a literal or a path."""
        part = self.document.part(at, field)
        with self.leaving_out(None if part is not None and self.document.kind(part) == "PathPat" else SIDE):
            self.pat(at, field, place)

    def has_meaning(self, at, place):
        """Whether the path of a record or a tuple struct is there and has a meaning, without which lowering reads nothing in it."""
        path = self.document.part(at, "path")
        return path is not None and self.names(path, place) is not None

    def elements(self, at, field, place):
        with self.leaving_out(None if self.has_meaning(at, place) else REFUSED):
            self.pats(at, field, place)

    def record_pat(self, at, field, place):
        with self.leaving_out(None if self.has_meaning(at, place) else REFUSED):
            for part in self.document.parts(at, field):
                self.behind_cfg(self.document.number(part), place, lambda part=part: self.pat(part, "pat", place))

    def pat_call(self, at, field, place):
        self.call(at, field, "pat", place, self.pat_)
