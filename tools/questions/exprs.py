"""What expressions and statements ask outside of what is disabled: the rules of crates/thm_enabled/specs/Asked.antt."""
from questions.asked import CONTEXTS, NAMELESS, REFUSED
from questions.types_and_paths import Types

# The parts of an expression, each as what reads it and its field.
EXPRS = {
    "IfExpr": [("expr", "condition"), ("plain", "then"), ("else_", "else")],
    "BlockExpr": [("own", None)],
    "LoopExpr": [("label", "label"), ("plain", "body")],
    "WhileExpr": [("label", "label"), ("expr", "condition"), ("plain", "body")],
    "ForExpr": [("for_", None)],
    "TryExpr": [("question_mark", "expr")],
    "CallExpr": [("expr", "expr"), ("exprs", "args")],
    "PathExpr": [("own_hygiene", None), ("path", "path")],
    "ContinueExpr": [("jump", "lifetime")],
    "BreakExpr": [("jump", "lifetime"), ("expr", "expr")],
    "ParenExpr": [("expr", "expr")],
    "Literal": [],
    "MethodCallExpr": [("expr", "receiver"), ("exprs", "args"), ("generics", "generics")],
    "FieldExpr": [("expr", "expr")],
    "PrefixExpr": [("expr", "expr")],
    "BinExpr": [("assignee", "lhs"), ("left", "lhs"), ("expr", "rhs")],
    "IndexExpr": [("expr", "base"), ("expr", "index")],
    "RefExpr": [("expr", "expr")],
    "TupleExpr": [("exprs", "fields")],
    "ArrayExpr": [("array", None)],
    "ClosureExpr": [("params", "params"), ("answer", "ret"), ("expr", "body")],
    "ReturnExpr": [("expr", "expr")],
    "BecomeExpr": [("expr", "expr")],
    "YieldExpr": [("expr", "expr")],
    "YeetExpr": [("expr", "expr")],
    "AwaitExpr": [("expr", "expr")],
    "CastExpr": [("expr", "expr"), ("type", "ty")],
    "RecordExpr": [("path", "path"), ("record", "list")],
    "OffsetOfExpr": [("type", "ty")],
    "CfgPredExpr": [("predicate", "pred")],
    "LetExpr": [("pat", "pat"), ("expr", "expr")],
    "MatchExpr": [("expr", "expr"), ("arms", "arms")],
    "RangeExpr": [("range_", None), ("expr", "start"), ("expr", "end")],
    "MacroExpr": [("expr_call", "call")],
    "UnderscoreExpr": [],
    "IncludeBytesExpr": [],
    "AsmExpr": [],
    "FormatArgsExpr": [],
}

FOR_ITEMS = {"IntoIterIntoIter", "IteratorNext", "OptionSome", "OptionNone"}
QUESTION_ITEMS = {"TryTraitBranch", "ControlFlowContinue", "ControlFlowBreak"}


class Exprs(Types):
    """Reads expressions and statements."""

    def __init__(self, document):
        super().__init__(document)
        # Parts of assignees, and why lowering leaves out what they ask themselves, or all that is asked in them.
        self.own_reasons = {}
        self.reasons = {}
        # The fields of records that are assignees, which need no names.
        self.target_records = set()

    def expr_(self, at, place):
        with self.leaving_out(self.reasons.get(at)):
            if at not in self.own_reasons:
                self.behind_cfg(self.document.number(at), place, lambda: self.parts(EXPRS, at, place))
                return
            with self.leaving_out(self.own_reasons[at]):
                self.ask("cfg", place.file, self.document.number(at))
            self.parts(EXPRS, at, place)

    def expr(self, at, field, place):
        self.present(at, field, place, self.expr_)

    def exprs(self, at, field, place):
        for part in self.document.parts(at, field):
            self.expr_(part, place)

    def own_hygiene(self, at, _, place):
        with self.leaving_out(self.own_reasons.get(at)):
            self.ask("hygiene", place.file, self.document.number(at))

    def label(self, at, field, place):
        """A label, whose own node has the hygiene."""
        self.present(at, field, place, lambda part, place: self.ask("hygiene", place.file, self.document.number(part)))

    def jump(self, at, field, place):
        """A jump to a label, which is searched in all contexts."""
        self.hygiene(at, field, place)
        if self.document.part(at, field) is not None:
            with self.leaving_out(CONTEXTS):
                self.ask("contexts")

    def else_(self, at, field, place):
        """Of a block behind `else` no condition is asked."""
        part = self.document.part(at, field)
        if part is not None:
            (self.plain_ if self.document.kind(part) == "BlockExpr" else self.expr_)(part, place)

    def for_(self, at, _, place):
        self.ask("lang_items")
        if not FOR_ITEMS & self.tables.lacking:
            self.label(at, "label", place)
            self.pat(at, "pat", place)
            self.expr(at, "iterable", place)
            body = self.document.part(at, "body")
            if body is not None:
                self.behind_cfg(self.document.number(body), place, lambda: self.own(body, None, place))

    def question_mark(self, at, field, place):
        self.ask("lang_items")
        if not QUESTION_ITEMS & self.tables.lacking:
            self.expr(at, field, place)

    def array(self, at, _, place):
        if self.document.part(at, "semi"):
            self.expr(at, "init", place)
            self.expr(at, "len", place)
        else:
            self.exprs(at, "elems", place)

    def params(self, at, field, place):
        for part in self.document.parts(at, field):
            self.behind_cfg(self.document.number(part), place, lambda part=part: self.param(part, place))

    def param(self, at, place):
        self.pat(at, "pat", place)
        self.type(at, "ty", place)

    def record(self, at, field, place):
        """The fields of a record and its spread, which lowering reads where the path has a meaning."""
        with self.leaving_out(None if self.has_meaning(at, place) else REFUSED):
            self.present(at, field, place, self.record_)

    def record_(self, at, place):
        for part in self.document.parts(at, "fields"):
            is_read = self.document.part(part, "name") is not None or at in self.target_records
            self.behind_cfg(self.document.number(part), place, lambda part=part, is_read=is_read: self.record_field(part, place, is_read))
        self.expr(at, "spread", place)

    def record_field(self, at, place, is_read):
        with self.leaving_out(None if is_read else NAMELESS):
            self.expr(at, "expr", place)

    def arms(self, at, field, place):
        for part in self.document.parts(at, field):
            self.behind_cfg(self.document.number(part), place, lambda part=part: self.arm(part, place))

    def arm(self, at, place):
        self.pat(at, "pat", place)
        self.present(at, "guard", place, lambda guard, place: self.expr(guard, "condition", place))
        self.expr(at, "expr", place)

    def range_(self, at, _, place):
        """The item of a range. Lowering asks which items there are in the module of a range without start and end, too."""
        if self.is_dots(at):
            self.beside.add(f"new_range {place.module}")
        else:
            self.ask("new_range", place.module)
        with self.leaving_out(self.own_reasons.get(at)):
            self.ask("lang_items")

    def is_dots(self, at):
        """Whether it is a range without start and end."""
        return self.document.kind(at) == "RangeExpr" and self.document.part(at, "start") is None and self.document.part(at, "end") is None

    def expr_call(self, at, field, place):
        self.call(at, field, "expr", place, self.expr_)

    # assignments

    def is_assignment(self, at):
        return self.document.part(at, "op") == "="

    def target(self, at, place):
        raise NotImplementedError

    def left(self, at, field, place):
        """The left side. That of an assignment is read wholly, since it is read as an assignee expression, too."""
        if self.is_assignment(at):
            with self.wholly():
                self.expr(at, field, place)
        else:
            self.expr(at, field, place)

    def assignee(self, at, field, place):
        """What each path on the left of an assignment resolves to that may be an assignee."""
        if self.is_assignment(at):
            self.present(at, field, place, self.target)

    # blocks

    def plain(self, at, field, place):
        self.present(at, field, place, self.plain_)

    def own(self, at, _, place):
        """A block with its modifier or its label."""
        word = self.document.part(at, "mod")
        if word is None:
            self.label(at, "label", place)
        elif word == "try":
            self.ask("lang_items")
            self.type(at, "ty", place)
        self.plain_(at, place)

    def plain_(self, at, place):
        """What is in a block, in the module of the block if it has one."""
        number = self.document.number(at)
        if place.is_analysed:
            self.ask("block", place.file, number, place.module)
            place = place.in_module(self.tables.blocks.get((place.file, number), place.module))
        self.contents(self.document.parts(at, "stmts"), self.document.part(at, "tail"), place, [])

    def contents(self, stmts, tail, place, defined):
        """Statements and a tail. `defined` has the names that `macro_rules` has defined in the block so far."""
        for stmt in stmts:
            self.stmt(stmt, place, defined)
        if tail is not None:
            self.value(tail, place, defined)

    def stmt(self, at, place, defined):
        kind = self.document.kind(at)
        if kind == "ExprStmt":
            self.present(at, "expr", place, lambda part, place: self.value(part, place, defined))
        elif kind == "LetStmt":
            self.behind_cfg(self.document.number(at), place, lambda: self.let(at, place))
        elif kind in ("MacroRules", "MacroDef"):
            self.definition(at, kind, place, defined)

    def let(self, at, place):
        self.param(at, place)
        self.expr(at, "init", place)
        self.present(at, "else", place, lambda part, place: self.plain(part, "block", place))

    def definition(self, at, kind, place, defined):
        """The definition of a macro. Of a disabled one by `macro_rules` nothing is asked, however it is read."""
        number, name = self.document.number(at), self.document.text_in(at, "name")
        if kind == "MacroDef":
            ask = (lambda: self.ask("macro_def", place.module, name)) if name is not None else lambda: None
            self.behind_cfg(number, place, ask)
            return
        self.ask("cfg", place.file, number)
        if (place.file, number) not in self.tables.disabled and name is not None:
            self.ask("legacy_macro", place.module, defined.count(name), name)
            defined.append(name)

    def value(self, at, place, defined):
        """An expression as a statement or a tail, where a macro call stands for statements."""
        if self.document.kind(at) != "MacroExpr":
            self.expr_(at, place)
            return
        number = self.document.number(at)
        self.ask("cfg", place.file, number)
        if (place.file, number) not in self.tables.disabled:
            self.call(at, "call", "stmts", place, lambda root, inner: self.contents(
                self.document.parts(root, "stmts"), self.document.part(root, "expr"), inner, defined))
