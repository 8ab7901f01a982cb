"""The names of a path and where they begin: `mod_path_of` of crates/hir_env/specs/PathNames.antt.

A segment is a pair of a word and what belongs to it: ("named", name), ("root", kind), ("self",), ("super",), ("anchor",) of `<T>`,
("trait", path) of `<T as Trait>`, whose path may be None, and ("refusing",), which has no meaning in a path.
"""
from questions.document import ModPath

PLAIN = ("plain",)


def piece_anywhere(first, piece):
    """The same segment, which has no meaning behind others if it may only stand first."""
    return piece if first or piece[0] in ("named", "super") else ("refusing",)


def crate_kind(root):
    """Where a path begins that stands behind `$crate`."""
    return ("crate",) if root is None else ("dollar", root)


class Reading:
    """What is read of the last segments of a path, from the last one to the first."""

    def __init__(self):
        self.is_refused = self.has_ended = self.is_anchored = False
        self.names = []
        self.kind = PLAIN
        self.supers = 0

    def counted(self):
        """The kind with the `super`s left of it."""
        inner = self.kind[1] if self.kind[0] == "super" else 0
        return ("super", inner + self.supers) if self.supers else self.kind

    def set_kind(self, leading, piece):
        """The kind that a segment sets, if it sets one."""
        if piece[0] == "root":
            return piece[1]
        if piece[0] == "anchor":
            return PLAIN
        if piece[0] == "trait" and piece[1] is not None:
            return piece[1].kind
        return ("abs",) if leading else None

    def read(self, leading, piece):
        """Reads a segment in front of what is read."""
        if self.has_ended:
            return
        behind = list(self.names)
        kind = self.set_kind(leading, piece)
        if piece[0] == "refusing" or (piece[0] == "trait" and (piece[1] is None or not piece[1].names)):
            self.is_refused = True
        if piece[0] == "named":
            self.names.insert(0, piece[1])
        elif piece[0] == "trait" and piece[1] is not None:
            self.names[:0] = piece[1].names
        self.has_ended = piece[0] == "root" or (piece[0] == "self" and bool(behind))
        self.supers = (0 if kind else self.supers) + (piece[0] == "super")
        self.kind = kind or self.kind
        self.is_anchored = self.is_anchored or piece[0] == "anchor"
        if piece[0] == "self" and behind:
            counted = self.counted()
            self.kind, self.supers = ("super", counted[1] if counted[0] == "super" else 0), 0

    def path(self):
        """The path, or None if it has no meaning."""
        if self.is_refused:
            return None
        kind = self.counted()
        if not self.names and kind == PLAIN and not self.is_anchored:
            kind = ("super", 0)
        return ModPath(kind, tuple(self.names))


def mod_path(levels):
    """The path of these levels, from the innermost to the outermost use tree: of each whether `::` stands in front, and its segments."""
    reading = Reading()
    for leading, pieces in levels:
        for at in range(len(pieces) - 1, 0, -1):
            reading.read(False, piece_anywhere(False, pieces[at]))
        reading.read(leading, pieces[0])
    return reading.path()
