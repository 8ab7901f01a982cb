#!/usr/bin/env python3
"""Makes documents from Rust text, over the tree that `rust-analyzer parse --json` prints.

    rust_doc.py FILE.rs --list                  what can be lowered: number, name, place, mode, what it is, what it stands in
    rust_doc.py FILE.rs --item 3 > doc.json     the document of item 3
    rust_doc.py FILE.rs --item NAME > doc.json  of the first item of that name; without --item of the first body
    rust_doc.py FILE.rs --item NAME --places    where each of its nodes stands: number, from, to, kind, text
    rust_doc.py FILE.rs --all DIR               a file for each body, and DIR/INDEX.tsv
    rust_doc.py FOLDER --stat                   how many bodies of a folder's files are lowered, and what is refused

`-` is standard input. The parser is $RUST_ANALYZER, else `rust-analyzer` on the path; the program that --stat runs is $LOWER_TOOL, else
the one of `./run`. Status 1: no such item; 2: no parser or no program, or it failed. docs/FRONT_END.md says more.
"""
import argparse
import json
import os
import sys

from front import command, pieces, stat


def compact(document):
    """A document in one line."""
    return json.dumps(document, ensure_ascii=False, separators=(",", ":"))


def row(*fields):
    """A line of a table."""
    return "\t".join(map(str, fields))


def list_pieces(source):
    """Prints what can be lowered."""
    for number, piece in enumerate(source.pieces):
        print(row(number, piece.name, source.place_text(piece.begin), piece.mode, piece.what, piece.container))


def write_all(source, folder, modes):
    """Writes a document for each piece that serves one of these modes, and the list of them by mode."""
    os.makedirs(folder, exist_ok=True)
    with open(os.path.join(folder, "INDEX.tsv"), "w", encoding="utf-8") as index:
        for number, piece in enumerate(source.pieces):
            wanted = [mode for mode in piece.modes if mode in modes]
            if not wanted:
                continue
            document, _ = source.build(piece)
            with open(os.path.join(folder, f"{number}.json"), "w", encoding="utf-8") as file:
                file.write(compact(document) + "\n")
            for mode in wanted:
                index.write(row(number, piece.name, source.place_text(piece.begin), mode, len(document["nodes"])) + "\n")


def print_places(source, piece):
    """Prints where each node of the file's own text stands."""
    document, built = source.build(piece)
    for number, node in enumerate(document["nodes"][:min(built.roots, default=None)]):
        start, end = node["r"]
        text = " ".join(source.text[start:end].decode("utf-8", "replace").split())[:60]
        print(row(number, source.place_text(start), source.place_text(end), node["k"], text))


def words_of():
    """The words of the command."""
    parser = argparse.ArgumentParser(description="Makes documents from Rust text.")
    command.add_text(parser, "a file of Rust, `-` for standard input, or a folder with --stat", "of --all and --stat")
    parser.add_argument("--list", action="store_true", help="what can be lowered")
    parser.add_argument("--item", metavar="N|NAME", help="which item; without it the first body")
    parser.add_argument("--places", action="store_true", help="where each node stands")
    parser.add_argument("--all", metavar="DIR", help="writes a file for each item")
    parser.add_argument("--stat", action="store_true", help="lowers all of a file or a folder, and counts")
    command.add_options(parser)
    return parser.parse_args()


def main():
    """Does what the words say, and answers the status."""
    words = words_of()
    options, modes = command.options_of(words), command.modes_of(words.modes)
    if words.stat:
        return stat.run(words.file, options, modes)
    source = pieces.Source(command.content(words.file), options)
    if words.list:
        list_pieces(source)
        return 0
    if words.all:
        write_all(source, words.all, modes)
        return 0
    piece = source.piece(words.item)
    if piece is None:
        print("rust_doc: no such item", file=sys.stderr)
        return 1
    if words.places:
        print_places(source, piece)
    else:
        print(compact(source.build(piece)[0]))
    return 0


if __name__ == "__main__":
    command.start("rust_doc", main)
