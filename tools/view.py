#!/usr/bin/env python3
"""Shows what a file of Rust is lowered to: one page, which names no other file.

    view.py FILE.rs > page.html

`-` is standard input. Conditions, macros and names are told as to rust_doc.py; no condition holds unless it is named, and with --all-cfg
nothing is left out. The parser is $RUST_ANALYZER, the program $LOWER_TOOL, else the one of `./run`. Status 2: one of them isn't there,
or failed.
"""
import argparse
import os
import sys

from front import command, page, pieces, program
from front.document import conditions_of


def words_of():
    """The words of the command."""
    parser = argparse.ArgumentParser(description="Shows what a file of Rust is lowered to, as one page.")
    command.add_text(parser, "a file of Rust, or `-` for standard input")
    parser.add_argument("--all-cfg", action="store_true", help="leaves nothing out for a condition")
    parser.add_argument("--no-resolve", action="store_true", help="no name stands for a value")
    command.add_options(parser, view=True)
    return parser.parse_args()


def main():
    """Writes the page."""
    words = words_of()
    options, modes = command.options_of(words), command.modes_of(words.modes)
    options.sources, options.resolve = True, not words.no_resolve
    options.conditions = None if words.all_cfg else conditions_of(words.cfg or [])
    source = pieces.Source(command.content(words.file), options)
    name = "standard input" if words.file == "-" else os.path.basename(words.file)
    made = page.Page(source, program.find(), modes).html(name)
    sys.stdout.buffer.write(made.encode())
    return 0


if __name__ == "__main__":
    command.start("view", main)
