"""What a body, and the signature of a function, ask: crates/thm_enabled/specs/Body.antt and crates/thm_item_questions/specs/Lists.antt."""
from questions.asked import BARE, SKIPPED, UNREAD
from questions.place import Place
from questions.targets import Targets

# The number that the document's owner has, as everything else of the document.
OWN = 0


class Items(Targets):
    """Reads what a document's root is, in each mode of the program."""

    def place(self, is_analysed=True):
        """Where the root is read."""
        return Place(OWN, OWN, is_analysed, "nowhere", False, self.tables.limit)

    # bodies

    def body(self):
        """A body with its parameters."""
        item, owner, is_skipped = self.document.root, self.document.owner, self.document.is_skipped
        self.owner(owner)
        with self.leaving_out(UNREAD if owner != "fn" and not is_skipped else None):
            self.present(item, "params", self.place(), self.formals)
        with self.leaving_out(SKIPPED if is_skipped else None):
            self.expr(item, "body", self.place())

    def owner(self, owner):
        self.ask("skip", owner, OWN)
        self.ask("container", owner, OWN)
        self.ask("expansion_limit")

    def formals(self, at, place):
        self.present(at, "self", place, self.self_param)
        for part in self.document.parts(at, "params"):
            self.behind_cfg(self.document.number(part), place, lambda part=part: self.present(part, "pat", place, self.formal))

    def self_param(self, at, place):
        self.behind_cfg(self.document.number(at), place, lambda: self.hygiene(at, "name", place))

    def formal(self, at, place):
        """The pattern of a parameter. Lowering reads none where the body is skipped."""
        with self.leaving_out(SKIPPED if self.document.is_skipped else None):
            if self.are_bare():
                self.bare(at, place)
            else:
                self.pat_(at, place)

    def are_bare(self):
        """Whether lowering reads only plain names in place of patterns."""
        root = self.document.root
        has_body = self.document.nodes and self.document.kind(root) == "Fn" and self.document.part(root, "body") is not None
        return self.document.container == "extern" or (self.document.container == "trait" and not has_body)

    def bare(self, at, place):
        """A pattern of which lowering reads only a plain name, itself or by the call that it stands for, and doesn't look it up."""
        kind = self.document.kind(at)
        if kind == "MacroPat":
            self.call(at, "call", "pat", place, self.bare)
            return
        is_plain = kind == "IdentPat" and not (self.document.part(at, "ref") or self.document.part(at, "mut")
                                               or self.document.part(at, "pat") is not None)
        if is_plain:
            self.hygiene(at, "name", place)
        with self.leaving_out(BARE):
            self.pat_(at, place)

    def pat_alone(self):
        """A pattern, which is the parameter of a function. Its parameter has the last of all numbers."""
        self.owner("fn")
        read = (lambda: self.formal(self.document.root, self.place())) if self.document.nodes else lambda: None
        self.behind_cfg(4294967295, self.place(), read)

    # types and paths

    def type_alone(self):
        self.ask("expansion_limit")
        if self.document.nodes:
            self.type_(self.document.root, self.place())

    def path_alone(self):
        """A path. Its arguments are in the list of the path."""
        self.ask("expansion_limit")
        self.path_(self.document.root, self.place(self.document.is_analysed))

    # functions

    def function(self):
        """The signature of a function."""
        item, place = self.document.root, self.place()
        self.ask("expansion_limit")
        self.present(item, "generics", place, self.generic_params)
        self.present(item, "where", place, self.where)
        self.present(item, "params", place.in_scope("input"), self.arguments_of)
        self.answer(item, "ret", place.in_scope("output"))

    def generic_params(self, at, place):
        for part in self.document.parts(at, "params"):
            self.behind_cfg(self.document.number(part), place, lambda part=part: self.generic_param(part, place))

    def generic_param(self, at, place):
        kind = self.document.kind(at)
        if kind == "TypeParam":
            self.type(at, "default", place)
        elif kind == "ConstParam":
            self.type(at, "ty", place)
            self.constant(at, "default", place)
        if kind == "TypeParam" or self.is_named(self.document.text_in(at, "lifetime")):
            self.bounds(at, "bounds", place.in_scope("bound"))

    def is_named(self, lifetime):
        """Whether it is a lifetime with a name, which makes a parameter."""
        return lifetime not in (None, "", "'", "'_", "'static")

    def where(self, at, place):
        for part in self.document.parts(at, "preds"):
            target = self.document.part(part, "ty") is not None
            if target:
                self.type(part, "ty", place.in_scope("bound"))
            if target or self.document.part(part, "lifetime") is not None:
                self.bounds(part, "bounds", place.in_scope("bound"))

    def arguments_of(self, at, place):
        parts = [*filter(lambda part: part is not None, [self.document.part(at, "self")]), *self.document.parts(at, "params")]
        for part in parts:
            self.behind_cfg(self.document.number(part), place, lambda part=part: self.argument(part, place))

    def argument(self, at, place):
        if not self.document.part(at, "variadic"):
            self.type(at, "ty", place)


# What reads a document's root in a mode of the program.
MODES = {"body": Items.body, "fn": Items.function, "pat": Items.pat_alone, "type": Items.type_alone, "path": Items.path_alone}


def questions(document, mode):
    """The questions that are asked of a document in a mode, each with the reason for which lowering leaves it out, or None; and those
    that it asks beside the list."""
    items = Items(document)
    MODES[mode](items)
    return items.asked, items.beside
