"""What is asked, and the parts of types, paths and patterns that ask it: the rules of crates/thm_enabled/specs/Whole.antt and Own.antt."""
import contextlib


# Why lowering leaves out what a list has. docs/CACHING.md says more of each.
DISABLED = "disabled"
SKIPPED = "skipped"
UNREAD = "unread"
BARE = "bare"
POINTER = "pointer"
SIDE = "side"
REFUSED = "refused"
NAMELESS = "nameless"
ALIAS = "alias"
ASSIGNEE = "assignee"
CONTEXTS = "contexts"

# The parts of a type, each as what reads it and its field.
TYPES = {
    "ParenType": [("type", "ty")],
    "SliceType": [("type", "ty")],
    "ArrayType": [("type", "ty"), ("constant", "len")],
    "TupleType": [("types", "fields")],
    "PathType": [("path", "path")],
    "PtrType": [("type", "ty")],
    "RefType": [("type", "ty")],
    "FnPtrType": [("fn_params", "params"), ("answer", "ret")],
    "ForType": [("type", "ty")],
    "ImplTraitType": [("impl_bounds", "bounds")],
    "DynTraitType": [("bounds", "bounds")],
    "PatternType": [("type", "ty"), ("pat", "pat"), ("limits", "pat")],
    "NeverType": [],
    "InferType": [],
    "MacroType": [("type_call", "call")],
}

# The parts of a pattern.
PATS = {
    "IdentPat": [("binding", None)],
    "TupleStructPat": [("path", "path"), ("elements", "fields")],
    "TuplePat": [("pats", "fields")],
    "RefPat": [("pat", "pat")],
    "PathPat": [("path", "path")],
    "OrPat": [("pats", "pats")],
    "ParenPat": [("pat", "pat")],
    "BoxPat": [("pat", "pat")],
    "DerefPat": [("pat", "pat")],
    "RecordPat": [("path", "path"), ("record_pat", "fields")],
    "SlicePat": [("pats", "prefix"), ("pat", "slice"), ("pats", "suffix")],
    "LiteralPat": [],
    "RangePat": [("side", "start"), ("side", "end")],
    "CfgPredPat": [("predicate", "pred")],
    "MacroPat": [("pat_call", "call")],
    "WildcardPat": [],
    "RestPat": [],
    "NotNullPat": [],
    "ConstBlockPat": [],
}


class Asking:
    """Notes what is asked. Of each question it has the reason for which lowering leaves it out, or None."""

    def __init__(self, document):
        self.document = document
        self.tables = document.tables
        self.asked = {}
        self.reason = None
        # What lowering asks beside the list.
        self.beside = set()
        # Whether disabled parts are read, too.
        self.is_whole = False

    def ask(self, *words):
        """Notes a question, which lowering asks if one of the places that ask it has no reason to leave it out."""
        line = " ".join(map(str, words))
        self.asked[line] = self.asked.get(line, self.reason) and self.reason

    @contextlib.contextmanager
    def leaving_out(self, reason):
        """What is asked in it is left out for this reason, where it isn't for another one."""
        before, self.reason = self.reason, self.reason or reason
        yield
        self.reason = before

    @contextlib.contextmanager
    def wholly(self):
        """Disabled parts are read in it, as in types, paths and patterns."""
        before, self.is_whole = self.is_whole, True
        yield
        self.is_whole = before

    def behind_cfg(self, number, place, read):
        """Asks for the condition of a node, and reads what is behind it."""
        self.ask("cfg", place.file, number)
        if (place.file, number) not in self.tables.disabled:
            read()
        elif self.is_whole:
            with self.leaving_out(DISABLED):
                read()

    def hygiene(self, at, field, place):
        """Asks for the hygiene of a name, a label or a lifetime, if it is there."""
        if self.document.part(at, field) is not None:
            self.ask("hygiene", place.file, self.document.number_in(at, field))

    def parts(self, table, at, place):
        """Reads the parts that a table names for the kind of a node."""
        for how, field in table[self.document.kind(at)]:
            getattr(self, how)(at, field, place)

    def present(self, at, field, place, read):
        """Reads a part, if it is there."""
        part = self.document.part(at, field)
        if part is not None:
            read(part, place)

    def predicate(self, at, field, place):
        pred = self.document.part(at, field)
        self.ask("cfg_pred", "-" if pred is None else pred)

    def call(self, at, field, kind, place, read):
        """Asks for the expansion of a macro call, if one may be entered, and reads the root of its tree if that is of the kind."""
        call = self.document.part(at, field)
        if call is None or not place.left:
            return
        number = self.document.number(call)
        self.ask("expand", place.file, number, place.module, kind)
        entered = self.expansion(call, kind, place)
        if entered:
            read(*entered)

    def expansion(self, call, kind, place):
        """The root of a call's expansion, if that is of the kind, and where it is read."""
        found = self.tables.expansion(place.file, self.document.number(call)) if place.left else None
        if found is None or found[1] is None or fragment_of(self.document.kind(found[1])) != kind:
            return None
        return found[1], place.within(found[0])


def fragment_of(kind):
    """What a macro call is to stand for whose expansion has a root of this kind."""
    if kind == "MacroStmts":
        return "stmts"
    return "pat" if kind in PATS else "type" if kind in TYPES else "expr"
