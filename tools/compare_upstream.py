#!/usr/bin/env python3
"""Compares what a rust-analyzer lowered with what the program stores, body by body.

    compare_upstream.py FILE.. [--signatures] [--show N] [--list]

A rust-analyzer ($RUST_ANALYZER, else `rust-analyzer`) is asked over its protocol for what it lowered, and the listing of the program
($LOWER_TOOL, else the one of `./run`) is printed in the same way. Each file is a crate of its own, in which no condition holds and no
macro is expanded. Known differences are counted by class; docs/DIFFERENCES.md has a row for each. The last line is `N the same, M known,
K different`. Status 1: something is different; 2: no rust-analyzer or no program, or it failed.
"""
import argparse

from front import command, compare, program, tree, upstream

BATCH = 200


def words_of():
    """The words of the command."""
    parser = argparse.ArgumentParser(description="Compares what a rust-analyzer lowered with what the program stores.")
    parser.add_argument("files", nargs="+", metavar="FILE", help="files of Rust")
    parser.add_argument("--signatures", action="store_true", help="compares signatures of functions too")
    parser.add_argument("--show", type=int, default=3, metavar="N", help="how many differences are printed, by default 3")
    parser.add_argument("--list", action="store_true", help="prints a line for each body")
    return parser.parse_args()


def source_of(name):
    """The file of Rust of this name."""
    try:
        return compare.sources([command.content(name)])[0]
    except tree.TextError as error:
        raise tree.TextError(f"{name}: {error}") from error


def ask(files, signatures):
    """The cases of some files with what upstream answered."""
    sources = [source_of(name) for name in files]
    listed = [(at, case) for at, source in enumerate(sources) for case in compare.cases(source, signatures)]
    asked = [(at, case) for at, case in listed if case.place is not None]
    with upstream.Server([source.text for source in sources]) as server:
        answers = server.view_hir([(at, case.place) for at, case in asked])
    known = {id(case): answer for (_, case), answer in zip(asked, answers)}
    return [(files[at], case, known.get(id(case))) for at, case in listed]


def main():
    """Compares the files, some at a time, and prints what came of it."""
    words = words_of()
    lowering, version = program.find(), tree.version()
    comparer, left = compare.Comparer(lowering), words.show
    for begin in range(0, len(words.files), BATCH):
        asked = ask(words.files[begin:begin + BATCH], words.signatures)
        if begin == 0:
            print(f"upstream: {version or 'no version is told'}; here: {lowering}")
        for name, case, answer in asked:
            verdict = comparer.compare(case, answer)
            if words.list:
                print(f"{name}: {case.title}: {verdict}")
            if verdict.kind == compare.DIFFERENT and left > 0:
                left -= 1
                print(f"{name}: {case.title}: {verdict}\n{verdict.difference()}")
    print("\n".join(comparer.summary()))
    return 1 if comparer.counts[compare.DIFFERENT] else 0


if __name__ == "__main__":
    command.start("compare_upstream", main)
