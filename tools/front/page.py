"""One page: the text at the left, what is stored at the right."""
import concurrent.futures
import html
import json
import os
import re

import listing

from . import names, program
from .layout import Group, Writer, around, keyword, word
from .show import Show

TEMPLATE = os.path.join(os.path.dirname(os.path.dirname(os.path.abspath(__file__))), "page.html")
AT_ONCE = 2
DIAGNOSTICS = {
    "InactiveCode": "left out, since a condition does not hold:",
    "UnreachableLabel": "a label around this constant, closure or coroutine, which no jump in it reaches:",
    "UndeclaredLabel": "a label that nothing around has:",
    "UnresolvedMacroCall": "a macro that is not found:",
    "AwaitOutsideOfAsync": "`await` outside of async code, in a",
    "MissingBody": "no body:",
    "FruInDestructuringAssignment": "an expression behind `..` in what is assigned to",
    "PatternArgInExternFn": "a pattern in a function without body",
}
TOKENS = {"LIFETIME_IDENT": "lt"} | {kind: "lit" for kind in "STRING BYTE_STRING C_STRING CHAR BYTE INT_NUMBER FLOAT_NUMBER".split()}
COMMENT = re.compile(r"//[^\n]*|/\*.*?(?:\*/|\Z)", re.S)


def tokens(node):
    """The tokens of a tree that have a style: start, end, style."""
    if node.children is None:
        style = "kw" if node.kind.endswith("_KW") else TOKENS.get(node.kind)
        if style:
            yield node.start, node.end, style
        return
    for child in node.children:
        yield from tokens(child)


def tags(tree, ranges):
    """The tags of the text in order: a span around each range, which nest as the tree does, and a style around tokens in them."""
    events = []
    for (start, end), number in ranges.items():
        events.append((start, 1, 1, -end, f"<span class=r data-r={number} id=r{number}>"))
        events.append((end, 0, 0, -start, "</span>"))
    for start, end, style in tokens(tree):
        events.append((start, 1, 2, -end, f"<i class={style}>"))
        events.append((end, 0, -1, -start, "</i>"))
    return [(event[0], event[4]) for event in sorted(events)]


def code(tree, text, ranges):
    """The text with its tags."""
    out, at = [], 0
    for place, tag in tags(tree, ranges):
        if place > at:
            out.append(escaped(text[at:place]))
            at = place
        out.append(tag)
    return "".join([*out, escaped(text[at:])])


def escaped(piece):
    """A piece of the text between tags, with its comments."""
    piece, out, at = piece.decode("utf-8", "replace"), [], 0
    for found in COMMENT.finditer(piece):
        out += [html.escape(piece[at:found.start()], False), f"<i class=com>{html.escape(found[0], False)}</i>"]
        at = found.end()
    return "".join([*out, html.escape(piece[at:], False)])


class Work:
    """An item to show: its piece, its document and what that was made by, and what lowering said of it, of a function's signature too."""

    def __init__(self, piece, document, built):
        self.piece, self.document, self.built, self.body, self.head = piece, document, built, None, (0, "", "")

    def lower(self, lowering):
        """Runs the program for the item, and for the signature of a function."""
        self.body = program.lower(lowering, self.piece.mode, self.document)
        if self.piece.mode == "body" and self.piece.owner == "fn":
            self.head = program.lower(lowering, "fn", self.document)
        return self


class Page:
    """The page of a file: its items of these modes, of which all but bodies are shown as their listings."""

    def __init__(self, source, lowering, modes=frozenset(("body",))):
        self.source, self.lowering, self.modes, self.ranges, self.sections = source, lowering, modes, {}, []
        self.forms, self.missing, self.told, self.told_ranges, self.bindings = 0, 0, 0, set(), []

    def number_of(self, start, end):
        """The number of a range of the text."""
        return self.ranges.setdefault((start, end), len(self.ranges))

    def build(self):
        """Lowers each item, and makes its section."""
        works = [Work(piece, *self.source.build(piece)) for piece in self.source.pieces if piece.mode in self.modes]
        with concurrent.futures.ThreadPoolExecutor(AT_ONCE) as pool:
            for number, work in enumerate(pool.map(lambda work: work.lower(self.lowering), works)):
                self.sections.append(self.section(number, work))
        self.resolve([work for work in works if work.piece.mode == "body" and work.piece.owner == "fn" and work.body[0] == 0])

    def resolve(self, works):
        """Notes which binding each name in these functions means, where the program that says so is there."""
        tool = names.find()
        for work, body in zip(works, names.ask(tool, [work.document for work in works]) or [] if tool else []):
            nodes = work.document["nodes"]
            for parts in body:
                patterns, uses = ([self.number_of(*nodes[node]["r"]) for node in part if node < len(nodes)] for part in parts)
                if patterns:
                    self.bindings.append({"at": patterns, "uses": uses})

    def section(self, number, work):
        """The section of an item."""
        piece = work.piece
        own, line = self.number_of(piece.node.start, piece.node.end), self.source.place(piece.begin)[0]
        shown, diagnostics = self.stored(work)
        self.told += len(diagnostics)
        told = f", {counted(len(diagnostics), 'diagnostic')}" if diagnostics else ""
        name = html.escape(piece.name)
        return (f'<section id=f{number} data-r={own} data-t="{html.escape(piece.name.lower())}">'
                f'<h2><button class=fold aria-label="fold">▾</button><a href="#" data-goto={own}>{name}</a>'
                f"<span class=ln>{piece.what} line {line}{told}</span></h2>"
                + (f"<ul class=dgs>{''.join(diagnostics)}</ul>" if diagnostics else "") + signature(work.head) + shown + "</section>")

    def stored(self, work):
        """What is stored of an item as HTML, and its diagnostics."""
        status, output, errors = work.body
        if status != 0:
            return f"<p class=refused>not lowered: {html.escape(errors)}</p>", []
        if work.piece.mode != "body":
            return f"<pre class=st>{html.escape(output)}</pre>", []
        try:
            body = listing.Body(output)
        except listing.ListingError as error:
            return f"<p class=refused>{html.escape(str(error))}</p><pre>{html.escape(output)}</pre>", []
        show = Show(self.number_of, work.document["nodes"], body, self.source.text)
        layout = self.heading(show, work.piece, body)
        self.forms += show.marked
        self.missing += output.count("(Missing")
        return f"<pre class=st>{Writer().write(layout)}</pre>", [self.diagnostic(work, *told) for told in body.diagnostics]

    def heading(self, show, piece, body):
        """The name of an item, its parameters, and its body."""
        title = [keyword(piece.what), " ", word(piece.name.split("::")[-1], "fn")]
        if piece.owner != "fn":
            return [Group(title), " = ", show.expr(body.body)]
        params = [show.binding(body.receiver)] if body.receiver else []
        params += [show.pat(param) for param in body.params]
        return [Group(title, around("(", params, ")")), " ", show.block(body.body)]

    def diagnostic(self, work, kind, detail, place):
        """The line of a diagnostic, which leads to its node."""
        number, nodes, ranges = place[1:], work.document["nodes"], work.built.ranges
        span = nodes[int(number)]["r"] if number.isdigit() and int(number) < len(nodes) else None
        if kind == "InactiveCode" and detail.isdigit() and int(detail) < len(ranges):
            start, end = ranges[int(detail)]
            detail = f"cfg({self.source.text[start:end].decode('utf-8', 'replace')})"
        range_number = self.number_of(*span) if span else ""
        if span:
            self.told_ranges.add(range_number)
        where = self.source.place_text(span[0]) if span else ""
        said = html.escape(f"{DIAGNOSTICS.get(kind, kind)} {detail}".strip())
        return f'<li class=dg tabindex=0 data-r="{range_number}"><b>{where}</b> {said}</li>'

    def number_of_items(self):
        """How many sections there are."""
        return counted(len(self.sections), *(("body", "bodies") if self.modes == {"body"} else ("item",)))

    def where(self, start, end):
        """A range as lines and columns."""
        begin, last = self.source.place(start), self.source.place(end)
        front = f"{begin[0]}:{begin[1]}-"
        return front + (f"{last[0]}:{last[1]}" if last[0] != begin[0] else f"{last[1]}")

    def html(self, name):
        """The page as one text."""
        self.build()
        text = self.source.text
        lines = text.count(b"\n") + (0 if text.endswith(b"\n") else 1)
        counts = [counted(lines, "line"), self.number_of_items(), counted(self.forms, "form")]
        counts += [f"{self.missing} missing"] if self.missing else []
        counts += [counted(self.told, "diagnostic")] if self.told else []
        sections = self.sections or ["<p class=ln>Nothing that can be shown stands in this file.</p>"]
        fill = {
            "NAME": html.escape(name), "SOURCE": code(self.source.tree, text, self.ranges),
            "LINES": "\n".join(map(str, range(1, lines + 1))), "STORE": "\n".join(sections),
            "WHERE": json.dumps([self.where(*span) for span in self.ranges], separators=(",", ":")),
            "DIAGS": json.dumps(sorted(self.told_ranges)), "COUNTS": " · ".join(counts),
            "BINDINGS": json.dumps(self.bindings, separators=(",", ":")),
        }
        with open(TEMPLATE, encoding="utf-8") as file:
            return re.sub(r"\{\{(\w+)\}\}", lambda found: fill[found[1]], file.read())


def counted(number, noun, several=None):
    """A number of things."""
    return f"{number} {noun if number == 1 else several or noun + 's'}"


def signature(head):
    """What the signature of a function is lowered to, folded."""
    status, output, _ = head
    lines = [line for line in output.rstrip("\n").split("\n") if line and not line.startswith("binding")]
    if status != 0 or not lines:
        return ""
    return f"<details class=sig><summary>signature</summary><pre>{html.escape(chr(10).join(lines))}</pre></details>"
