"""What can be lowered in a file of Rust, and where it stands."""
from bisect import bisect_left, bisect_right

from .document import Document, Fragments, Options, path_text
from .texts import plain_name
from .tree import TYPE, each, every, first, first_token, only, path_segments

HOLDERS = ("IMPL", "TRAIT", "MODULE", "STRUCT", "ENUM", "UNION", "TYPE_ALIAS", "EXTERN_BLOCK")
CONTAINERS = {"IMPL": "impl", "TRAIT": "trait", "EXTERN_BLOCK": "extern"}
OWNERS = {"FN": "fn", "CONST": "const", "STATIC": "static", "VARIANT": "variant"}


class Piece:
    """Something with a body (mode `body`), with generics (`fn`), a type (`type`) or a path (`path`), by its name and the parser's node.

    It begins behind comments and attributes. Of a path in a use tree `around` holds the paths of the use trees around it, the innermost
    first.
    """

    def __init__(self, name, mode, what, node, owner="fn", container="module", around=()):
        self.name, self.mode, self.what, self.node, self.owner, self.container = name, mode, what, node, owner, container
        self.around = around
        self.begin = next((child.start for child in node.children if child.kind != "ATTR"), node.start)
        self.skip = mode == "body" and is_skipped(node)

    @property
    def modes(self):
        """The modes that its document serves: of a function its signature's too."""
        return ("body", "fn") if self.mode == "body" and self.owner == "fn" else (self.mode,)


def is_skipped(node):
    """Whether an attribute says that the body is to be skipped."""
    metas = [only(attribute, "PATH_META") for attribute in each(node, "ATTR")]
    return any(meta and path_text(path_segments(only(meta, "PATH"))) == "rust_analyzer::skip" for meta in metas)


def name_of(node):
    """The name of an item, `_` where it has none."""
    name = only(node, "NAME")
    token = first_token(name) if name is not None else None
    return plain_name(token.text) if token else "_"


class Finder:
    """Goes through a file and notes its pieces, in the order of the text, what stands in bodies too."""

    def __init__(self, text):
        self.text, self.found = text, []

    def walk(self, node, front, container):
        """Looks at what stands in a node; `front` is the name of what is around it."""
        for child in node.children:
            if not child.children:
                continue
            if child.kind in OWNERS:
                self.owner(child, front, container)
            elif child.kind in HOLDERS:
                self.holder(child, front)
            elif child.kind in ("RECORD_FIELD", "TUPLE_FIELD"):
                self.note(front + name_of(child), "type", "field type", first(child, TYPE))
                self.walk(child, front, "module")
            elif child.kind == "USE":
                self.use_trees(child, front, ())
            elif child.kind in ("ASSOC_ITEM_LIST", "EXTERN_ITEM_LIST"):
                self.walk(child, front, container)
            elif child.kind not in ("TOKEN_TREE", "ATTR"):
                self.walk(child, front, "module")

    def note(self, name, mode, what, node, *more):
        """Notes a piece that is there."""
        if node is not None:
            self.found.append(Piece(name, mode, what, node, *more))

    def owner(self, node, front, container):
        """A function, a constant, a static, or a variant, which is a piece where it has a value."""
        owner, name = OWNERS[node.kind], front + name_of(node)
        if owner != "variant":
            self.note(name, "body", owner, node, owner, container)
        elif only(node, "CONST_ARG") is not None:
            self.note(name, "body", owner, node, owner)
        self.walk(node, name + "::", "module")

    def holder(self, node, front):
        """An item that holds others: what is generic in it, and the types of an `impl` and an alias."""
        types, what = every(node, TYPE), node.kind.lower()
        if node.kind == "IMPL":
            name = front + "<" + " for ".join(self.written(part) for part in types) + ">"
        else:
            name = front + ("extern" if node.kind == "EXTERN_BLOCK" else name_of(node))
        if only(node, "GENERIC_PARAM_LIST") or only(node, "WHERE_CLAUSE"):
            self.note(name, "fn", what, node)
        for part in types if node.kind in ("IMPL", "TYPE_ALIAS") else []:
            self.note(name, "type", what + " type", part)
        self.walk(node, name + "::", CONTAINERS.get(node.kind, "module"))

    def use_trees(self, node, front, around):
        """The path of each use tree. Behind one that has none a path has nothing around it, as upstream looks no further."""
        for tree in each(node, "USE_TREE"):
            path, inside = only(tree, "PATH"), only(tree, "USE_TREE_LIST")
            if path is not None:
                self.found.append(Piece(front + self.written(path), "path", "use path", path, around=around))
            if inside is not None:
                self.use_trees(inside, front, () if path is None else (path, *around))

    def written(self, node):
        """The text of a node in one line."""
        return " ".join(self.text[node.start:node.end].decode("utf-8", "replace").split())


def values(tree):
    """Names and kinds of the constants, statics and structs without named fields at the top of a file."""
    out = []
    for child in tree.children:
        if child.kind in ("CONST", "STATIC"):
            out.append((name_of(child), child.kind.lower()))
        elif child.kind == "STRUCT" and only(child, "RECORD_FIELD_LIST") is None:
            out.append((name_of(child), "struct"))
    return [(name, kind) for name, kind in out if name != "_"]


class Source:
    """A file: its text, its tree, its pieces, and places by line and column.

    Ends of lines are made one byte first, as upstream does where it loads a file.
    """

    def __init__(self, text, options=None):
        self.text, self.options = text.replace(b"\r\n", b"\n"), options or Options()
        self.tree = self.options.parse(self.text)
        finder = Finder(self.text)
        finder.walk(self.tree, "", "module")
        self.pieces, self.fragments, self.names = finder.found, Fragments(self.options.parse), values(self.tree)
        self.starts = [0] + [at + 1 for at, byte in enumerate(self.text) if byte == 10]
        self.insides = [at for at, byte in enumerate(self.text) if 0x80 <= byte < 0xC0]

    def place(self, byte):
        """Line and column from 1, the column in characters."""
        line = bisect_right(self.starts, byte)
        start = self.starts[line - 1]
        return line, byte - start - (bisect_left(self.insides, byte) - bisect_left(self.insides, start)) + 1

    def place_text(self, byte):
        """The place as `LINE:COLUMN`."""
        return "%d:%d" % self.place(byte)

    def piece(self, wanted):
        """The piece of this number, or the first of this name; the first body where nothing is wanted; None where there is none."""
        for number, piece in enumerate(self.pieces):
            if wanted in (str(number), piece.name) or (wanted is None and piece.mode == "body"):
                return piece
        return None

    def build(self, piece):
        """The document of a piece, and what it was made by."""
        builder = Document(self.options, self.fragments)
        return builder.of(piece, self.names), builder
