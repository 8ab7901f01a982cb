"""One document: the nodes of an item, and the tables beside them."""
from .builder import Builder
from .conditions import Conditions
from .texts import reference_name
from .tree import EXPR, PAT, TYPE, Node, first, first_token, has, only, parse

MOST_EXPANSIONS = 4096
MOST_DEPTH = 64
KNOWN_VARIANTS = ("None", "Some", "Ok", "Err")


class Options:
    """What a caller says of the surroundings, as the words of the commands do."""

    def __init__(self):
        self.conditions = None     # Conditions, or None: nothing is disabled
        self.blocks = True         # whether blocks with items have numbers
        self.expand = {}           # the name of a macro, and the text that its calls become
        self.unresolved = False    # whether other calls name macros that aren't found, else they have no expansion
        self.resolve = False       # whether known variants, and the constants and structs of the file, are values
        self.sources = False       # whether listings show sources
        self.known_variants = KNOWN_VARIANTS
        self.environment = {}      # more of `env`
        self.parse = parse         # what makes a tree of a text


class Fragments:
    """Texts that calls become, read as what their place wants; each is parsed once."""

    AROUND = {
        "stmts": (b"fn _f() {", b"}"),
        "expr": (b"const _: _ = ", b";"),
        "pat": (b"fn _f() { match _x {", b"=> {} } }"),
        "type": (b"type _T = ", b";"),
    }

    def __init__(self, parse_text):
        self.parse_text, self.made = parse_text, {}

    def get(self, text, wanted):
        """The tree of a text, or None where it is no such thing, and how many bytes its places are behind."""
        before, after = self.AROUND[wanted]
        key = before + text.encode() + b"\n" + after
        if key not in self.made:
            self.made[key] = self.cut(self.parse_text(key), wanted, len(before), len(text.encode()))
        return self.made[key], len(before)

    @staticmethod
    def cut(tree, wanted, start, size):
        """What was wanted, cut out of the item around it."""
        item = tree.children[0]
        if wanted in ("expr", "type"):
            return first(item, EXPR if wanted == "expr" else TYPE)
        body = only(item, "BLOCK_EXPR")
        body = body and only(body, "STMT_LIST")
        if body is None:
            return None
        if wanted == "stmts":
            inside = tuple(child for child in body.children if child.kind not in ("L_CURLY", "R_CURLY"))
            return Node("MACRO_STMTS", start, start + size, inside, None)
        for kind in ("MATCH_EXPR", "MATCH_ARM_LIST", "MATCH_ARM"):
            body = body and only(body, kind)
        return body and first(body, PAT)


class Document(Builder):
    """The document of a piece of a file."""

    def __init__(self, options, fragments):
        super().__init__()
        self.options, self.fragments, self.numbers_blocks = options, fragments, options.blocks
        self.disabled, self.ranges, self.macros, self.files, self.pending, self.roots, self.depth = [], [], [], {}, [], [], 0

    def ask(self, number, node, inner):
        """Notes what a condition disables, and where that condition stands."""
        conditions = self.options.conditions
        if conditions is None or not node.children:
            return
        attributes = [child for child in node.children if child.kind == "ATTR" and not has(child, "BANG")]
        if inner is not None:
            attributes += [child for child in inner.children if child.kind == "ATTR" and has(child, "BANG")]
        predicate = conditions.disabled_by(attributes)
        if predicate is not None:
            self.disabled.append([self.file, number, len(self.ranges)])
            self.ranges.append([predicate.start - self.shift, predicate.end - self.shift])

    def called(self, number, segments, wanted):
        """A call that has a text is expanded later; each expansion is a file of its own."""
        name = only(segments[-1], "NAME_REF") if segments and segments[-1] is not None else None
        text = self.options.expand.get(self.make(name)) if name is not None else None
        if text is not None and len(self.files) < MOST_EXPANSIONS and self.depth < MOST_DEPTH:
            file = len(self.files) + 1
            self.files[file] = text
            self.pending.append((self.file, number, file, text, wanted, self.depth + 1, self.module))
        elif self.options.unresolved:
            self.macros.append([self.file, number, "unresolved", path_text(segments)])

    def expansions(self):
        """The trees of expansions are roots of their own, behind what calls them."""
        while self.pending:
            file, number, own, text, wanted, depth, module = self.pending.pop(0)
            root, shift = self.fragments.get(text, wanted)
            self.file, self.shift, self.depth, self.module = own, shift, depth, module
            self.roots.append(len(self.nodes))
            self.macros.append([file, number, "file", own, None if root is None else self.root(root)])
        self.file, self.shift, self.depth, self.module = 0, 0, 0, 0

    def root(self, node):
        """The root of an expansion."""
        if node.kind != "MACRO_STMTS":
            return self.make(node)
        number, made = self.new("MacroStmts", node)
        self.statements(made, node)
        self.put_tail(made, "expr", first(node, EXPR))
        return number

    def item(self, node):
        """The root: a function whole, of a constant, a static or a variant the body alone, of others what is generic."""
        made = {"k": "Fn", "r": [node.start, node.end]}
        self.nodes.append(made)
        if node.kind == "VARIANT":
            value = only(node, "CONST_ARG")
            self.put(made, "body", first(value, EXPR) if value is not None else None)
        elif node.kind in ("CONST", "STATIC"):
            self.put(made, "body", first(node, EXPR))
        else:
            self.put(made, "generics", only(node, "GENERIC_PARAM_LIST"))
            self.put(made, "where", only(node, "WHERE_CLAUSE"))
            if node.kind == "FN":
                self.function(made, node)

    def function(self, made, node):
        """The rest of a function."""
        for word in ("async", "gen"):
            if has(node, word.upper() + "_KW"):
                made[word] = True
        self.put(made, "params", only(node, "PARAM_LIST"))
        self.put(made, "ret", only(node, "RET_TYPE"))
        self.put(made, "body", only(node, "BLOCK_EXPR"))

    def of(self, piece, names):
        """The document of a piece, in a file whose values have these names."""
        if piece.mode == "path":
            self.make_PATH(piece.node, around=piece.around)
        elif piece.mode == "type":
            self.make(piece.node)
        else:
            self.item(piece.node)
        self.expansions()
        document = {"nodes": self.nodes}
        if piece.owner != "fn":
            document["owner"] = piece.owner
        if piece.container != "module":
            document["container"] = piece.container
        if piece.skip:
            document["skip"] = True
        if self.options.sources:
            document["sources"] = True
        environment = self.environment(names)
        if environment:
            document["env"] = environment
        return document

    def environment(self, names):
        """The tables that aren't empty; those of the caller come behind."""
        tables = {name: getattr(self, name) for name in ("disabled", "blocks", "macros", "macro_defs", "legacy") if getattr(self, name)}
        if self.options.resolve:
            known = [(name, "variant") for name in self.options.known_variants] + list(names)
            tables["resolve"] = [[module, name, "variant" if kind == "variant" else None, kind, None]
                                 for module in range(self.modules + 1) for name, kind in known]
        for name, value in self.options.environment.items():
            tables[name] = tables[name] + value if isinstance(value, list) and name in tables else value
        return tables


def path_text(segments):
    """A path without arguments, `?` for a name that is missing, as the table of macros wants it."""
    words, front = [], ""
    for at, segment in enumerate(segments):
        name = only(segment, "NAME_REF") if segment is not None else None
        token = first_token(name) if name is not None else None
        word = reference_name(token.text) if token else "?"
        words.append("crate" if word == "$crate" else word)
        if at == 0 and segment is not None and has(segment, "COLON2"):
            front = "::"
    return front + "::".join(words)


def conditions_of(words):
    """The conditions that `--cfg` names, or None where it isn't there; an empty word names none."""
    return None if words is None else Conditions(word for word in words if word)
