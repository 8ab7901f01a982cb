"""What rust-analyzer lowered beside what the program stores, body by body and signature by signature."""
import collections
import difflib
import functools
import re

import listing

from . import known, pieces, program
from .conditions import Conditions
from .document import Options
from .hir_print import OWNERS, HirPrinter
from .hir_signature import SignaturePrinter
from .tree import EXPR, PAT, each, first, first_token, only, parse

DEFINITION = re.compile(rb"\bmacro_rules!\s*(\w+)|\bmacro\s+(\w+)(?=\s*[({])")
SAME, KNOWN, DIFFERENT, NOT_COMPARABLE = "the same", "known", "different", "not comparable"


def without_macros(text):
    """A text in which no macro is defined under a name that is called, so that no call of it is expanded on either side."""
    return DEFINITION.sub(lambda found: found[0].replace(found[1] or found[2], b"zz_" + (found[1] or found[2])), text)


def options(parse_text=parse):
    """No condition holds, and names stand for what is at the top of the file."""
    made = Options()
    made.sources, made.resolve, made.known_variants = True, True, ()
    made.conditions, made.parse = Conditions([]), parse_text
    return made


class Case:
    """A body or a signature: its document, where upstream is asked for it, and the name that it has there."""

    def __init__(self, source, piece, mode):
        self.source, self.piece, self.mode = source, piece, mode
        self.document, _ = source.build(piece)
        self.name, self.place = printed_name(piece), place_of(piece.node) if mode == "body" else name_place(piece.node)

    @property
    def text(self):
        """The text of the item."""
        return self.source.text[self.piece.node.start:self.piece.node.end].decode("utf-8", "replace")

    @property
    def title(self):
        """What it is called in a record."""
        return f"{self.piece.name}, {'signature' if self.mode == 'fn' else 'body'}"

    def write(self, document, listed):
        """What is stored, as upstream prints it."""
        if self.mode == "fn":
            return known.alike(SignaturePrinter(document, listed, self.source.text).signature(self.name))
        return known.alike(HirPrinter(document, listed, self.source.text).body(self.piece.owner, self.name))

    def answered(self, answer):
        """What upstream printed, or None where it is not about this item."""
        if answer is None:
            return None
        if self.mode == "fn":
            found = re.search(r'(?<![\w"])fn ', answer)
            answer = answer[found.start():] if found else ""
            head = f"fn {self.name}"
        else:
            head = OWNERS[self.piece.owner].format(self.name).removesuffix(" = ")
        named = re.match(re.escape(head) + (r"(?![\w#])" if self.name else ""), answer)
        return known.alike(answer) if named and (self.mode == "fn" or not answer.endswith("{...}\n")) else None


def cases(source, signatures):
    """The bodies of a file, and with `signatures` those of its functions."""
    for piece in source.pieces:
        if piece.mode == "body":
            yield Case(source, piece, "body")
            if signatures and piece.owner == "fn":
                yield Case(source, piece, "fn")


def printed_name(piece):
    """The name as upstream prints it, with what makes it a raw one; of a variant behind that of its enumeration."""
    name = only(piece.node, "NAME")
    token = first_token(name) if name is not None else None
    text = token.text if token else "_" if piece.owner == "const" else "<missing>"
    if piece.owner != "variant":
        return text
    return "::".join([*piece.name.split("::")[-2:-1], text])


def place_of(node):
    """Behind the first byte of the body, else of the first pattern that a parameter has; None where there is neither."""
    value = only(node, "BLOCK_EXPR") if node.kind == "FN" else first(only(node, "CONST_ARG") or node, EXPR)
    if value is not None:
        return value.start + 1
    params = only(node, "PARAM_LIST") if node.kind == "FN" else None
    if params is None:
        return None
    receiver = only(params, "SELF_PARAM")
    patterns = [receiver] if receiver is not None else [first(param, PAT) for param in each(params, "PARAM")]
    return next((pattern.start + 1 for pattern in patterns if pattern is not None), None)


def name_place(node):
    """Behind the first byte of the name."""
    name = only(node, "NAME")
    return name.start + 1 if name is not None else None


class Verdict:
    """What a comparison came to, with the classes of a known difference, or the reason."""

    def __init__(self, kind, why=(), ours="", theirs=""):
        self.kind, self.why, self.ours, self.theirs = kind, list(why), ours, theirs

    def __str__(self):
        return self.kind + (": " + ", ".join(self.why) if self.why else "")

    def difference(self):
        """The lines that differ."""
        left, right = self.theirs.splitlines(True), self.ours.splitlines(True)
        return "".join(difflib.unified_diff(left, right, "upstream", "here", n=2))


class Comparer:
    """Compares cases by a program."""

    def __init__(self, lowering):
        self.lowering, self.counts = lowering, collections.Counter()

    def listed(self, case, document):
        """The listing of a document that was read back, or the reason why there is none."""
        status, output, errors = program.lower(self.lowering, case.mode, document)
        if status != 0:
            return None, errors
        try:
            listed = (listing.Signature if case.mode == "fn" else listing.Body)(output)
        except listing.ListingError as error:
            return None, f"the listing isn't read: {error}"
        return (None, "the listing has no body") if case.mode == "body" and listed.body is None else (listed, "")

    def compare(self, case, answer):
        """Compares one case with what upstream answered."""
        theirs = case.answered(answer)
        if theirs is None:
            return self.count(Verdict(NOT_COMPARABLE, ["upstream tells nothing of it"]))
        listed, reason = self.listed(case, case.document)
        if listed is None:
            return self.count(Verdict(DIFFERENT, [reason], "", theirs))
        ours = case.write(case.document, listed)
        if ours == theirs:
            return self.count(Verdict(SAME))
        return self.count(self.explained(case, listed, ours, theirs))

    def explained(self, case, listed, ours, theirs):
        """A known difference, with conditions as 1.98.1 takes them or without, or a difference."""
        fired = known.undo(listed, functools.partial(case.write, case.document), theirs, case.text)
        if fired is not None:
            return Verdict(KNOWN, fired)
        for name, document in known.older(case.document):
            other, _ = self.listed(case, document)
            fired = known.undo(other, functools.partial(case.write, document), theirs, case.text) if other else None
            if fired is not None:
                return Verdict(KNOWN, [*fired, name])
        return Verdict(DIFFERENT, [], ours, theirs)

    def count(self, verdict):
        """Counts a verdict."""
        self.counts[verdict.kind] += 1
        for name in verdict.why:
            self.counts[f"{verdict.kind}: {name}"] += 1
        return verdict

    def summary(self):
        """The lines of the summary; the last one has the numbers."""
        lines = [f"{number:7} {name}" for name, number in sorted(self.counts.items()) if ": " in name]
        return lines + [", ".join(f"{self.counts[kind]} {kind}" for kind in (SAME, KNOWN, DIFFERENT))]


def sources(texts, parse_text=parse):
    """The files of Rust of these texts."""
    return [pieces.Source(without_macros(text), options(parse_text)) for text in texts]
