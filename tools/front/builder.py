"""Nodes of a document from nodes of the parser: those of `forms.FORMS` by that table, the others by the methods here."""
from . import texts
from .forms import FORMS, OPERATORS, PREFIXES, RANGES, WORDS
from .tree import (BLOCK_ITEM, EXPR, GROUPS, PAT, STMT, TYPE, comma_follows, each, every, first, first_token, has, only, path_segments)


def parts_of(words):
    """A field of the table, as the field, the sign behind it and what is looked for."""
    for sign in "=*:":
        field, found, what = words.partition(sign)
        if found:
            listed, _, kind = what.rpartition("/")
            return field, sign, listed, GROUPS.get(kind, frozenset([kind]))
    raise ValueError(words)


TABLE = {kind: (words.split()[0], [parts_of(part) for part in words.split()[1:]]) for kind, words in FORMS.items()}


class Builder:
    """Makes nodes. Each is appended before its parts, so a part stands behind its whole."""

    def __init__(self):
        self.nodes, self.notes, self.blocks, self.legacy, self.macro_defs = [], [], [], [], []
        self.file, self.shift, self.module, self.modules, self.numbers_blocks = 0, 0, 0, 0, True

    def new(self, kind, node, inner=None):
        """A node with its range, as its number and its fields; inner attributes stand in `inner`."""
        made = {"k": kind, "r": [node.start - self.shift, node.end - self.shift]}
        self.nodes.append(made)
        self.ask(len(self.nodes) - 1, node, inner)
        return len(self.nodes) - 1, made

    def ask(self, number, node, inner):
        """Is told each node, for the conditions at it."""

    def make(self, node):
        """What a node of the parser becomes: a number, or the text of a name or a lifetime."""
        method = getattr(self, "make_" + node.kind, None)
        return method(node) if method else self.by_table(node)

    def by_table(self, node):
        """A node whose parts the table tells."""
        kind, parts = TABLE[node.kind]
        number, made = self.new(kind, node)
        for field, sign, listed, kinds in parts:
            place = only(node, listed) if listed else node
            if sign == "=":
                self.put(made, field, first(place, kinds))
            elif sign == "*" and place is not None:
                self.many(made, field, every(place, kinds))
            elif sign == ":" and first(place, kinds) is not None:
                made[field] = True
        return number

    def put(self, made, field, node):
        """A field that has one part, where that is there."""
        if node is not None:
            made[field] = self.make(node)

    def many(self, made, field, nodes):
        """A field that has a list of parts."""
        made[field] = out = []
        for node in nodes:
            out.append(self.make(node))

    # names and literals

    def make_NAME(self, node):
        """The text of a name."""
        token = first_token(node)
        return texts.plain_name(token.text) if token else ""

    def make_NAME_REF(self, node):
        """The text of a name that is used."""
        token = first_token(node)
        return texts.reference_name(token.text) if token else ""

    def make_LIFETIME(self, node):
        """The text of a lifetime."""
        token = first_token(node)
        return texts.plain_lifetime(token.text) if token else ""

    def make_LITERAL(self, node):
        """A literal by its token, which attributes may stand in front of."""
        number, made = self.new("Literal", node)
        made["lit"], made["t"], suffix = texts.literal(next(child for child in node.children if child.kind != "ATTR"))
        if suffix:
            made["suffix"] = suffix
        return number

    # blocks and loops

    def make_IF_EXPR(self, node):
        """Condition, then and else are the expressions in their order, whatever each of them is."""
        number, made = self.new("IfExpr", node)
        parts = every(node, EXPR)
        self.put(made, "condition", condition(node))
        if len(parts) > 1 and parts[1].kind == "BLOCK_EXPR":
            made["then"] = self.make(parts[1])
        if len(parts) > 2 and parts[2].kind in ("BLOCK_EXPR", "IF_EXPR"):
            made["else"] = self.make(parts[2])
        return number

    def make_WHILE_EXPR(self, node):
        """A loop over a condition."""
        return self.loop("WhileExpr", "condition", node)

    def make_FOR_EXPR(self, node):
        """A loop over what is iterated."""
        return self.loop("ForExpr", "iterable", node)

    def loop(self, kind, over, node):
        """The body is the second of the blocks, else the first. One block that would be both stays in the first field, with a note."""
        number, made = self.new(kind, node)
        self.put(made, "label", only(node, "LABEL"))
        if kind == "ForExpr":
            self.put(made, "pat", first(node, PAT))
        asked, body = condition(node), next(iter(each(node, "BLOCK_EXPR")[:2][::-1]), None)
        if asked is not None and asked is body:
            self.notes.append(f"one block is {over} and body")
            body = None
        self.put(made, over, asked)
        self.put(made, "body", body)
        return number

    def make_BLOCK_EXPR(self, node):
        """A block with its modifier or its label. One in which an item stands begins a module of its own."""
        number, made = self.new("BlockExpr", node)
        tried, label = only(node, "TRY_BLOCK_MODIFIER"), only(node, "LABEL")
        modifier = modifier_of(node, tried)
        if modifier is not None:
            made["mod"] = modifier
        elif label is not None:
            made["label"] = self.make(label)
        if has(node, "MOVE_KW"):
            made["move"] = True
        if modifier == "try":
            self.put(made, "ty", first(tried, TYPE))
        body = only(node, "STMT_LIST")
        if body is None:
            return number
        outer = self.module
        if self.numbers_blocks and has_items(body):
            self.modules += 1
            self.module = self.modules
            self.blocks.append([self.file, number, self.module, self.module])
        self.statements(made, body)
        self.put_tail(made, "tail", first(body, EXPR))
        self.module = outer
        return number

    def put_tail(self, made, field, node):
        """A tail or a statement, where a call of a macro may stand for several statements."""
        if node is not None:
            made[field] = self.macro("MacroExpr", node, "stmts") if node.kind == "MACRO_EXPR" else self.make(node)

    def statements(self, made, node):
        """The statements of a list, and which macros they define."""
        counts = {}
        made["stmts"] = out = []
        for child in node.children:
            if child.kind == "ASM_EXPR":
                # It is an item and an expression: as the tail it isn't a statement as well.
                if first(node, EXPR) is not child:
                    out.append(self.new("Item", child)[0])
            elif child.kind in ("MACRO_RULES", "MACRO_DEF"):
                out.append(self.definition(child, counts))
            elif child.kind in ("LET_STMT", "EXPR_STMT"):
                out.append(self.make(child))
            elif child.kind in STMT:
                out.append(self.new("Item", child)[0])

    def make_EXPR_STMT(self, node):
        """An expression as a statement."""
        number, made = self.new("ExprStmt", node)
        self.put_tail(made, "expr", first(node, EXPR))
        if has(node, "SEMICOLON"):
            made["semi"] = True
        return number

    def definition(self, node, counts):
        """The definition of a macro, as the count-th of its name in its block."""
        legacy = node.kind == "MACRO_RULES"
        number, made = self.new("MacroRules" if legacy else "MacroDef", node)
        self.put(made, "name", only(node, "NAME"))
        if "name" not in made or not self.numbers_blocks:
            return number
        name, macro = made["name"], len(self.legacy) + len(self.macro_defs)
        if legacy:
            self.legacy.append([self.module, name, counts.get(name, 0), macro])
            counts[name] = counts.get(name, 0) + 1
        else:
            self.macro_defs.append([self.module, name, macro])
        return number

    # other expressions

    def make_MATCH_EXPR(self, node):
        """A match, at whose arms inner attributes stand."""
        arms = only(node, "MATCH_ARM_LIST")
        number, made = self.new("MatchExpr", node, arms)
        self.put(made, "expr", first(node, EXPR))
        if arms is not None:
            self.many(made, "arms", each(arms, "MATCH_ARM"))
        return number

    def make_RECORD_EXPR_FIELD(self, node):
        """A shorthand has the name of its path, where that is one name without a qualifier."""
        number, made = self.new("RecordExprField", node)
        value, name = first(node, EXPR), only(node, "NAME_REF")
        if name is None and value is not None and value.kind == "PATH_EXPR":
            segments = path_segments(only(value, "PATH"))
            name = only(segments[0], "NAME_REF") if len(segments) == 1 and segments[0] is not None else None
        self.put(made, "name", name)
        self.put(made, "expr", value)
        return number

    def make_FIELD_EXPR(self, node):
        """A field by its name, or by a number, where one that isn't all digits is 0."""
        number, made = self.new("FieldExpr", node)
        self.put(made, "expr", first(node, EXPR))
        name, token = only(node, "NAME_REF"), first(node, ("INT_NUMBER", "FLOAT_NUMBER"))
        if name is not None:
            made["name"] = self.make(name)
        elif token is not None:
            place = texts.reference_name(token.text)
            made["name"] = place if place.isascii() and place.isdigit() and int(place) < 1 << 64 else "0"
        return number

    def make_PREFIX_EXPR(self, node):
        """The operator is the very first thing in the node: behind an attribute there is none."""
        number, made = self.new("PrefixExpr", node)
        front = node.children[0].kind if node.children else None
        if front in PREFIXES:
            made["op"] = PREFIXES[front]
        elif front == "ATTR":
            self.notes.append("a prefix behind an attribute has no operator")
        self.put(made, "expr", first(node, EXPR))
        return number

    def make_BIN_EXPR(self, node):
        """The operator is the first token that is one; the sides are the expressions in their order."""
        number, made = self.new("BinExpr", node)
        operator = first(node, OPERATORS)
        if operator is not None:
            made["op"] = OPERATORS[operator.kind]
        self.in_order(made, node, "lhs", "rhs")
        return number

    def make_INDEX_EXPR(self, node):
        """Base and index are the expressions in their order."""
        number, made = self.new("IndexExpr", node)
        self.in_order(made, node, "base", "index")
        return number

    def in_order(self, made, node, *fields):
        """Fields that are the expressions of a node in their order."""
        for field, part in zip(fields, every(node, EXPR)):
            made[field] = self.make(part)

    def make_TUPLE_EXPR(self, node):
        """A tuple, with a comma in front where one is."""
        number, made = self.new("TupleExpr", node)
        self.listed_in_parentheses(made, node, EXPR)
        return number

    def listed_in_parentheses(self, made, node, kinds):
        """All parts, and whether a comma stands in front of them."""
        if comma_follows(node, "L_PAREN"):
            made["leading_comma"] = True
        self.many(made, "fields", every(node, kinds))

    def make_ARRAY_EXPR(self, node):
        """A semicolon decides whether it is a list."""
        number, made = self.new("ArrayExpr", node)
        if has(node, "SEMICOLON"):
            made["semi"] = True
            self.in_order(made, node, "init", "len")
        else:
            self.many(made, "elems", every(node, EXPR))
        return number

    def make_RANGE_EXPR(self, node):
        """A range of expressions."""
        number, made = self.new("RangeExpr", node)
        self.ends(made, node, EXPR)
        return number

    def ends(self, made, node, kinds):
        """The first operator of a range, and the ends in front of it and behind it; without one neither is read."""
        at = next((i for i, child in enumerate(node.children) if child.kind in RANGES), None)
        if at is None:
            return False
        made["op"] = RANGES[node.children[at].kind]
        self.put(made, "start", next((child for child in node.children[:at] if child.kind in kinds), None))
        self.put(made, "end", next((child for child in node.children[at:] if child.kind in kinds), None))
        return True

    # calls of macros

    def make_MACRO_EXPR(self, node):
        """A call of a macro that stands for an expression."""
        return self.macro("MacroExpr", node, "expr")

    def make_MACRO_PAT(self, node):
        """A call of a macro that stands for a pattern."""
        return self.macro("MacroPat", node, "pat")

    def make_MACRO_TYPE(self, node):
        """A call of a macro that stands for a type."""
        return self.macro("MacroType", node, "type")

    def macro(self, kind, node, wanted):
        """The holder of a call, and the call, of which `wanted` is made."""
        number, made = self.new(kind, node)
        call = only(node, "MACRO_CALL")
        if call is None:
            return number
        made["call"], inner = self.new("MacroCall", call)
        path = only(call, "PATH")
        if path is not None:
            inner["path"] = self.make_PATH(path, True)
        self.called(made["call"], path_segments(path), wanted)
        return number

    def called(self, number, segments, wanted):
        """Is told each call of a macro by its node and its path."""

    # patterns

    def make_TUPLE_STRUCT_PAT(self, node):
        """A tuple behind a path."""
        number, made = self.new("TupleStructPat", node)
        self.put(made, "path", only(node, "PATH"))
        self.listed_in_parentheses(made, node, PAT)
        return number

    def make_TUPLE_PAT(self, node):
        """A tuple."""
        number, made = self.new("TuplePat", node)
        self.listed_in_parentheses(made, node, PAT)
        return number

    def make_RECORD_PAT(self, node):
        """A record: its fields stand in a list of their own, which may be absent."""
        number, made = self.new("RecordPat", node)
        self.put(made, "path", only(node, "PATH"))
        fields = only(node, "RECORD_PAT_FIELD_LIST")
        self.many(made, "fields", each(fields, "RECORD_PAT_FIELD") if fields else [])
        if fields is not None and has(fields, "REST_PAT"):
            made["rest"] = True
        return number

    def make_RECORD_PAT_FIELD(self, node):
        """A shorthand has the name that it binds, also behind `box`."""
        number, made = self.new("RecordPatField", node)
        pattern, name = first(node, PAT), only(node, "NAME_REF")
        if name is None and pattern is not None:
            bound = first(pattern, PAT) if pattern.kind == "BOX_PAT" else pattern
            name = only(bound, "NAME") if bound is not None and bound.kind == "IDENT_PAT" else None
        self.put(made, "name", name)
        self.put(made, "pat", pattern)
        return number

    def make_SLICE_PAT(self, node):
        """The first rest divides what is in front from what is behind."""
        number, made = self.new("SlicePat", node)
        parts = every(node, PAT)
        at = next((i for i, part in enumerate(parts) if is_rest(part)), len(parts))
        self.many(made, "prefix", parts[:at])
        self.put(made, "slice", parts[at] if at < len(parts) else None)
        self.many(made, "suffix", parts[at + 1:])
        return number

    def make_RANGE_PAT(self, node):
        """A range of patterns. `...` is no operator here: the first end is the start, the second is nothing."""
        number, made = self.new("RangePat", node)
        if not self.ends(made, node, PAT):
            self.put(made, "start", first(node, PAT))
        return number

    # paths and types

    def make_PATH(self, node, in_macro=False, around=()):
        """A path with its segments from first to last, null where one is absent. `::` belongs to a segment, and here to the path.

        `around` are the paths of the use trees around it, the innermost first.
        """
        number, made = self.new("Path", node)
        segments = path_segments(node)
        leading = [at for at, segment in enumerate(segments) if segment is not None and has(segment, "COLON2")]
        if leading:
            made["leading"] = True
        self.notes.extend("two colons twice in a path" for at in leading if at)
        if in_macro:
            made["in_macro"] = True
        if around:
            made["use"] = self.make_PATH(around[0], around=around[1:])
        made["segs"] = out = []
        for segment in segments:
            out.append(None if segment is None else self.make(segment))
        return number

    def make_PATH_SEGMENT(self, node):
        """A name, a word, or a type in angles, with its arguments."""
        number, made = self.new("PathSegment", node)
        name, anchor = only(node, "NAME_REF"), only(node, "TYPE_ANCHOR")
        if name is not None:
            token = first_token(name)
            made["seg"] = WORDS.get(token and token.kind, "name")
            if made["seg"] == "name":
                made["name"] = self.make(name)
        elif anchor is not None:
            made["seg"] = "type"
            types = every(anchor, TYPE)
            self.put(made, "ty", types[0] if types else None)
            self.put(made, "trait", types[1] if len(types) > 1 and types[1].kind == "PATH_TYPE" else None)
        self.put(made, "generics", only(node, "GENERIC_ARG_LIST"))
        self.put(made, "parens", only(node, "PARENTHESIZED_ARG_LIST"))
        self.put(made, "ret", only(node, "RET_TYPE"))
        if has(node, "RETURN_TYPE_SYNTAX"):
            made["rtn"] = True
        return number

    def make_FN_PTR_TYPE(self, node):
        """A pointer to a function. Its ABI is what stands between the quotes, and empty for `extern` alone."""
        number, made = self.new("FnPtrType", node)
        if has(node, "UNSAFE_KW"):
            made["unsafe"] = True
        abi, listed = only(node, "ABI"), only(node, "PARAM_LIST")
        if abi is not None:
            made["abi"] = abi_text(only(abi, "STRING"))
        if listed is not None:
            self.many(made, "params", each(listed, "PARAM"))
        self.put(made, "ret", only(node, "RET_TYPE"))
        return number

    def make_TYPE_BOUND(self, node):
        """A path type, else a `for` type whose type is one, else `use<..>`, else a lifetime, else nothing."""
        number, made = self.new("TypeBound", node)
        if has(node, "QUESTION"):
            made["maybe"] = True
        path, bound, used, lifetime = (only(node, kind) for kind in ("PATH_TYPE", "FOR_TYPE", "USE_BOUND_GENERIC_ARGS", "LIFETIME"))
        if path is not None:
            self.bound_path(made, node, path)
        elif bound is not None:
            inner = first(bound, TYPE)
            if inner is not None and inner.kind == "PATH_TYPE":
                self.bound_path(made, bound, inner)
        elif used is not None:
            made["b"] = "use"
            self.many(made, "uses", every(used, ("LIFETIME", "NAME_REF")))
        elif lifetime is not None:
            made["b"] = "lifetime"
            made["lifetime"] = self.make(lifetime)
        else:
            self.notes.append("a bound of no kind")
        return number

    def bound_path(self, made, around, path):
        """A bound that is a path, with the binder that stands in `around`."""
        made["b"] = "path"
        self.put(made, "binder", only(around, "FOR_BINDER"))
        made["ty"] = self.make(path)

    def make_FOR_BINDER(self, node):
        """The lifetimes of a binder, null where one is absent; types and constants in it are passed over."""
        number, made = self.new("ForBinder", node)
        params = only(node, "GENERIC_PARAM_LIST")
        if params is not None:
            lifetimes = [only(param, "LIFETIME") for param in each(params, "LIFETIME_PARAM")]
            made["params"] = [None if lifetime is None else self.make(lifetime) for lifetime in lifetimes]
        return number


def condition(node):
    """The first expression; one that is a block counts only where another expression follows."""
    parts = every(node, EXPR)
    return parts[0] if parts and (parts[0].kind != "BLOCK_EXPR" or len(parts) > 1) else None


def modifier_of(node, tried):
    """The modifier of a block, or None. `try` stands in a node of its own."""
    if has(node, "GEN_KW"):
        return "asyncgen" if has(node, "ASYNC_KW") else "gen"
    for word, place in (("async", node), ("unsafe", node), ("try", tried), ("const", node)):
        if place is not None and has(place, word.upper() + "_KW"):
            return word
    return None


def abi_text(token):
    """What stands between the quotes of an ABI, whose token may be absent."""
    if token is None:
        return ""
    begin, end = token.text.find('"'), token.text.rfind('"')
    return token.text[begin + 1:end] if begin != end else token.text


def is_rest(pattern):
    """Whether a part of a slice is `..`, `x @ ..`, or one of these behind `&`."""
    if pattern is not None and pattern.kind == "REF_PAT":
        pattern = first(pattern, PAT)
    if pattern is None or pattern.kind == "REST_PAT":
        return pattern is not None
    behind = first(pattern, PAT) if pattern.kind == "IDENT_PAT" else None
    return behind is not None and behind.kind == "REST_PAT"


def has_items(node):
    """Whether an item, or a call of a macro as a statement, stands in a block and in no block of it."""
    for child in node.children:
        if child.children is None or child.kind == "BLOCK_EXPR":
            continue
        if child.kind in BLOCK_ITEM:
            return True
        if child.kind == "MACRO_EXPR" and node.kind in ("STMT_LIST", "EXPR_STMT") and has(child, "MACRO_CALL"):
            return True
        if child.kind != "MACRO_CALL" and has_items(child):
            return True
    return False
