"""The nodes and the tables of a document, as docs/DOCUMENTS.md describes them."""
import dataclasses
import json

# The name that a text lacks.
MISSING = None

# What is written in front of a path's names, and the kind that it gives the path.
FRONTS = {"": ("abs",), "self": ("super", 0), "crate": ("crate",)}


@dataclasses.dataclass(frozen=True)
class ModPath:
    """A path without arguments: where it begins, and its names."""

    kind: tuple
    names: tuple

    def text(self):
        """As a line of a log has it."""
        names = "::".join("?" if name is MISSING else name for name in self.names)
        return " ".join([*map(str, self.kind), names])

    def is_bare(self):
        """Whether it is one name that begins nowhere."""
        return self.kind == ("plain",) and len(self.names) == 1


def parsed_path(text):
    """The path that a text of a table is."""
    kind, names = ("plain",), text.split("::")
    if names[0] in FRONTS:
        kind = FRONTS[names.pop(0)]
    elif names[0].startswith("$crate("):
        kind = ("dollar", int(names.pop(0)[len("$crate("):-1]))
    else:
        supers = next((at for at, name in enumerate(names) if name != "super"), len(names))
        if supers:
            kind, names = ("super", supers), names[supers:]
    return ModPath(kind, tuple(MISSING if name == "?" else name for name in names))


def first_of(entries):
    """A table, in which of two entries for one key the first counts."""
    table = {}
    for key, value in entries:
        table.setdefault(key, value)
    return table


class Tables:
    """What the environment answers, as far as it decides what is asked next."""

    def __init__(self, env):
        self.limit = env.get("limit", 16)
        self.disabled = {(file, node) for file, node, _ in env.get("disabled", [])}
        self.hygiene = first_of(((file, node), hygiene) for file, node, hygiene in env.get("hygiene", []))
        self.contexts = first_of((context, (local and macro is not None, root))
                                 for context, _, _, macro, local, root in env.get("contexts", []))
        self.blocks = first_of(((file, node), module) for file, node, _, module in env.get("blocks", []))
        self.types = first_of(((module, parsed_path(path)), found) for module, path, found, _, _ in env.get("resolve", []))
        self.macros = first_of(((file, node), answer) for file, node, *answer in env.get("macros", []))
        self.lacking = {name for name, number in env.get("lang", {}).items() if number is None}

    def context(self, file, node):
        """The context of a name, which has the number of its hygiene."""
        return self.hygiene.get((file, node), 0)

    def is_local(self, context):
        """Whether the macro that a context came from is local to its crate."""
        return self.contexts.get(context, (False, None))[0]

    def crate_root(self, context):
        """The root of a context's crate, if it has one."""
        return self.contexts.get(context, (False, None))[1]

    def expansion(self, file, node):
        """The file of a call's expansion and the index of the root of its tree, if it has an expansion."""
        answer = self.macros.get((file, node), ["none"])
        return answer[1:] if answer[0] == "file" else None


class Document:
    """A tree, which lies in a list of nodes, with its tables."""

    def __init__(self, text):
        members = json.loads(text)
        self.nodes = members["nodes"]
        self.root = members.get("root", 0)
        self.owner = members.get("owner", "fn")
        self.container = members.get("container", "module")
        self.is_skipped = members.get("skip", False)
        self.is_analysed = members.get("analysis", True)
        self.tables = Tables(members.get("env", {}))

    def kind(self, at):
        """The kind of a node."""
        return self.nodes[at]["k"]

    def number(self, at):
        """The number of a node, by which the environment knows it."""
        return self.nodes[at].get("id", at)

    def part(self, at, field, default=None):
        """The index, the text or the flag that stands in a field of a node."""
        return self.nodes[at].get(field, default)

    def parts(self, at, field):
        """The indexes in a list, which may be absent."""
        return self.nodes[at].get(field) or []

    def number_in(self, at, field):
        """The number of the name or the lifetime in a field. A text in place of a node has that of the node that holds it."""
        part = self.part(at, field)
        return self.number(at if isinstance(part, str) else part)

    def text_in(self, at, field):
        """The text of the name or the lifetime in a field."""
        part = self.part(at, field)
        return part if part is None or isinstance(part, str) else self.part(part, "t")
