#!/usr/bin/env python3
"""Tests of the front end: test_front_end.py [--bless]

Its rows stand in tests/front_end, as tests/front_end/README.md tells. The kept trees make the documents, so that all is tested where no
parser is installed. One of the version that the trees are of ($RUST_ANALYZER, else `rust-analyzer`) has to make them again; of another
version it is told how many it makes otherwise. The program is $LOWER_TOOL, else the one of ./run. Where a browser is installed
($CHROMIUM, else `chromium`) it opens a page. With --bless the trees, documents and listings are written anew. The last lines say what
ran; status 1: something differs.
"""
import argparse
import glob
import json
import os
import re

from front import command, kept, pieces, program
from front.tree import ParserError, parse, version as parser_version
from front_tests import commands, hir_record, pages, reading

TOP = program.TOP
ROWS = os.path.join(TOP, "tests", "front_end")


class Tally:
    """Counts what was compared, and says what differs."""

    def __init__(self):
        self.done, self.different = {}, 0

    def count(self, what, by=1):
        """Counts something that was done."""
        self.done[what] = self.done.get(what, 0) + by

    def same(self, name, what, wanted, got):
        """Compares what was kept with what came now."""
        if wanted != got:
            self.different += 1
            print(f"DIFFERENT {name}: {what}\n  kept {str(wanted)[:600]}\n  now  {str(got)[:600]}")


class Row:
    """A text with the words of its options, and what is kept of it."""

    def __init__(self, path):
        self.path, self.name = path.removesuffix(".rs"), os.path.basename(path).removesuffix(".rs")
        parser = argparse.ArgumentParser()
        parser.add_argument("--item")
        command.add_options(parser)
        self.words = parser.parse_args(self.kept("words").split("\n")[:-1])
        with open(path, "rb") as file:
            self.text = file.read()

    def kept(self, ending):
        """A file of the row, empty where it isn't there."""
        path = f"{self.path}.{ending}"
        if not os.path.exists(path):
            return ""
        with open(path, encoding="utf-8", newline="") as file:
            return file.read()

    def keep(self, ending, content):
        """Writes a file of the row, or nothing where it would be empty."""
        if content:
            with open(f"{self.path}.{ending}", "w", encoding="utf-8", newline="") as file:
                file.write(content)

    def document(self, parse):
        """The piece of the row, its document, and what that was made by."""
        options = command.options_of(self.words)
        options.sources, options.parse = True, parse
        source = pieces.Source(self.text, options)
        piece = source.piece(self.words.item)
        document, built = source.build(piece)
        if built.notes:
            document["notes"] = built.notes
        return piece, document, built


def by_lines(document):
    """A document with one node a line."""
    def compact(value):
        return json.dumps(value, ensure_ascii=False, separators=(",", ":"))

    rest = [f'"{name}": {compact(value)}' for name, value in document.items() if name != "nodes"]
    nodes = ",\n".join(compact(node) for node in document["nodes"])
    return "{" + ",\n".join(['"nodes": [\n' + nodes + "]", *rest]) + "}\n"


def cuts_whole(texts, span):
    """Whether a range cuts whole characters out of one of the texts, without white space around them."""
    for text in texts:
        try:
            piece = text[span[0]:span[1]].decode()
        except UnicodeDecodeError:
            continue
        if 0 <= span[0] <= span[1] <= len(text) and piece == piece.strip():
            return True
    return False


def run_row(row, lowering, live, bless, tally):
    """Compares all that is kept of one row, or keeps it anew. With `live` a parser of the same version makes the trees."""
    parser = kept.Keeper(None if live else kept.read(row.kept("tree")))
    piece, document, built = row.document(parser)
    made = {"tree": kept.written(parser.trees)} if live else {}
    made["json"] = by_lines(document)
    texts = [row.text.replace(b"\r\n", b"\n"), *(text.encode() for text in built.files.values())]
    tally.same(row.name, "ranges", [], [node["r"] for node in document["nodes"] if not cuts_whole(texts, node["r"])])
    for mode, ending in modes_of(piece):
        status, output, errors = program.lower(lowering, mode, document)
        made[ending] = output
        tally.same(row.name, f"status of {mode}", (0, ""), (status, errors))
        tally.count("listings")
    for ending, content in made.items():
        if bless:
            row.keep(ending, content)
        else:
            tally.same(row.name, f"file .{ending}", row.kept(ending), content)
    tally.count("documents")
    return parser.trees


def number_of(version):
    """The number in what a parser says of itself, or None."""
    found = re.search(r"\d+\.\d+\.\d+", version or "")
    return found[0] if found else None


def otherwise(trees):
    """How many trees the parser makes otherwise, or not at all."""
    count = 0
    for text, tree in trees:
        try:
            count += kept.written({text: tree}) != kept.written({text: parse(text)})
        except ParserError:
            count += 1
    return count


def run_rows(rows, lowering, version, bless, tally):
    """Runs all rows, and says what ran and by which parser."""
    path = os.path.join(ROWS, "VERSION")
    with open(path, encoding="utf-8") as file:
        of = file.read().strip()
    live = number_of(version) == of or (bless and version is not None)
    trees = [tree for row in rows for tree in run_row(row, lowering, live, bless, tally).items()]
    if bless and version:
        with open(path, "w", encoding="utf-8") as file:
            file.write(number_of(version) + "\n")
    parsed = f"{len(trees) if live else 0} (the parser's version is {of})"
    if version is None:
        parsed = f"0, since there is no rust-analyzer (the kept ones are of {of})"
    elif not live:
        parsed = f"{len(trees)} by {version}, {otherwise(trees)} otherwise than by {of}, which isn't held against it"
    return f"rows {len(rows)}, documents {tally.done['documents']}, listings {tally.done['listings']}, trees parsed anew {parsed}"


def modes_of(piece):
    """The modes in which a piece is lowered, each with the ending of what is kept: of a function body and signature."""
    yield piece.mode, "out"
    if piece.mode == "body" and piece.owner == "fn":
        yield "fn", "fn.out"


def main():
    """Runs all tests, and says what ran."""
    parser = argparse.ArgumentParser(description="Tests of the front end.")
    parser.add_argument("--bless", action="store_true", help="writes what is kept anew")
    bless = parser.parse_args().bless
    lowering, version, tally = program.find(), parser_version(), Tally()
    rows = [Row(path) for path in sorted(glob.glob(os.path.join(ROWS, "*.rs")))]
    print(f"{run_rows(rows, lowering, version, bless, tally)}; different {tally.different}")
    print(reading.run(tally))
    print(hir_record.run(lowering, version, bless, tally))
    print(commands.run(lowering, tally))
    print(pages.run(lowering, tally))
    return 1 if tally.different or not rows else 0


if __name__ == "__main__":
    command.start("test_front_end", main)
