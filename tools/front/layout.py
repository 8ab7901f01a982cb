"""Puts texts with marks around them into lines of a limited width.

A layout is a text, a `Html`, a mark (`Around`), a line that may break (LINE, SOFT where it is nothing otherwise) or has to (HARD), a
`Nest`, whose lines begin further right, a `Group`, whose lines break all or none, or a list of these.
"""
import html

WIDTH = 76
STEP = 2
ENDLESS = 1 << 30
LINE, SOFT, HARD = object(), object(), object()


class Html:
    """A text with HTML of its own, and how wide it is."""

    __slots__ = ("html", "width")

    def __init__(self, markup, width):
        self.html, self.width = markup, width


class Around:
    """HTML around a layout."""

    __slots__ = ("opening", "inner", "closing")

    def __init__(self, opening, inner, closing="</span>"):
        self.opening, self.inner, self.closing = opening, inner, closing


class Nest:
    """A layout that stands further right."""

    __slots__ = ("inner",)

    def __init__(self, inner):
        self.inner = inner


class Group:
    """A layout whose lines break where it doesn't fit into what is left of the line."""

    __slots__ = ("inner", "width")

    def __init__(self, *inner):
        self.inner = list(inner)
        self.width = width_of(self.inner)


def width_of(layout):
    """How wide a layout is in one line."""
    if isinstance(layout, str):
        return len(layout) if "\n" not in layout else ENDLESS
    if isinstance(layout, (Html, Group)):
        return layout.width
    if isinstance(layout, (Nest, Around)):
        return width_of(layout.inner)
    if isinstance(layout, list):
        return min(ENDLESS, sum(map(width_of, layout)))
    return {LINE: 1, SOFT: 0, HARD: ENDLESS}[layout]


class Writer:
    """Writes a layout as HTML."""

    def __init__(self):
        self.out, self.column, self.waiting = [], 0, []

    def write(self, layout):
        """The HTML of a layout."""
        self.waiting = [(layout, 0, False)]
        while self.waiting:
            self.one(*self.waiting.pop())
        return "".join(self.out)

    def one(self, layout, indent, broken):
        """Writes one text, or leaves the parts to come."""
        if isinstance(layout, str):
            self.put(html.escape(layout, False), len(layout))
        elif isinstance(layout, Html):
            self.put(layout.html, layout.width)
        elif isinstance(layout, Group):
            self.waiting.append((layout.inner, indent, self.column + layout.width > WIDTH))
        elif isinstance(layout, Nest):
            self.waiting.append((layout.inner, indent + STEP, broken))
        elif isinstance(layout, Around):
            self.put(layout.opening, 0)
            self.waiting += [(Html(layout.closing, 0), indent, broken), (layout.inner, indent, broken)]
        elif isinstance(layout, list):
            self.waiting += [(part, indent, broken) for part in reversed(layout)]
        else:
            self.end_of_line(layout, indent, broken)

    def put(self, text, width):
        """Writes on this line."""
        self.out.append(text)
        self.column += width

    def end_of_line(self, kind, indent, broken):
        """A line that breaks, or the space that stands for it."""
        if broken or kind is HARD:
            self.out.append("\n" + (f"<u>{' ' * indent}</u>" if indent else ""))
            self.column = indent
        elif kind is LINE:
            self.put(" ", 1)


def word(text, style):
    """A text with a style of the page."""
    return Html(f"<i class={style}>{html.escape(text, False)}</i>", len(text))


def keyword(text):
    """A word of the language."""
    return word(text, "kw")


def joined(layouts):
    """Layouts with commas between them."""
    out = []
    for at, layout in enumerate(layouts):
        out += [",", LINE, layout] if at else [layout]
    return out


def around(opening, layouts, closing):
    """A list between two signs."""
    return Group(opening, Nest([SOFT, *joined(layouts)]), SOFT, closing) if layouts else [opening, closing]


def braces(front, layouts):
    """A list in braces behind what is in front of it."""
    return Group(front, " {", Nest([LINE, *joined(layouts)]), LINE, "}") if layouts else [front, " {}"]
