"""Lowers all that stands in the files of a folder, and counts."""
import collections
import concurrent.futures
import os
import re
import sys
import time

from . import pieces, program
from .tree import ParserError, TextError

EVERY = 1.0
AT_ONCE = 2
KINDS = {"fn": "generics", "type": "type", "path": "path"}
SIGNATURE = "signature"


def files_of(path):
    """The files of Rust in a folder, in order, or the file itself."""
    if not os.path.isdir(path):
        return [path]
    found = []
    for folder, folders, names in os.walk(path):
        folders.sort()
        found += [os.path.join(folder, name) for name in sorted(names) if name.endswith(".rs")]
    return found


class Count:
    """What was found so far, and a line of it on standard error, at most once a second."""

    def __init__(self, files):
        self.files, self.done, self.begun = files, 0, time.monotonic()
        self.told = self.begun
        self.pieces, self.nodes, self.refused, self.reasons = (collections.Counter() for _ in range(4))
        self.largest, self.unread = (0, ""), []

    def add(self, path, piece, mode, nodes, status, errors):
        """Counts one piece in one of its modes."""
        kind = KINDS.get(piece.mode, piece.what) if mode == piece.mode else SIGNATURE
        self.pieces[kind] += 1
        self.nodes[kind] += nodes
        self.largest = max(self.largest, (nodes, f"{piece.name} in {path}"))
        if status != 0:
            self.refused[kind] += 1
            self.reasons[re.sub(r"\d+", "N", errors) or f"status {status}"] += 1

    def line(self):
        """Files, bodies, refused, seconds."""
        spent = time.monotonic() - self.begun
        return (f"{self.done} of {len(self.files)} files, {self.pieces.total()} bodies and types, {self.refused.total()} refused,"
                f" {spent:.1f} s")

    def tell(self, last=False):
        """Writes the line: over the one before on a terminal, at most once a second, and at the end."""
        now, terminal = time.monotonic(), sys.stderr.isatty()
        if last or now - self.told >= (EVERY if terminal else 10 * EVERY):
            self.told = now
            print(("\r" if terminal else "") + self.line(), end="" if terminal and not last else "\n", file=sys.stderr, flush=True)

    def summary(self):
        """The lines of the summary by kind."""
        yield f"{'kind':10} {'number':>8} {'nodes':>10} {'refused':>8}"
        for kind, number in sorted(self.pieces.items()):
            yield f"{kind:10} {number:8} {self.nodes[kind]:10} {self.refused[kind]:8}"
        yield f"{'all':10} {self.pieces.total():8} {self.nodes.total():10} {self.refused.total():8}"
        yield from (f"refused {number}: {reason}" for reason, number in self.reasons.most_common())
        yield from (f"not read: {path}: {error}" for path, error in self.unread)
        yield f"largest: {self.largest[0]} nodes, {self.largest[1]}"


def run(path, options, modes):
    """Lowers each piece of these modes, one process each; status 1 where a file isn't read or something is refused."""
    lowering, files = program.find(), files_of(path)
    count = Count(files)
    with concurrent.futures.ThreadPoolExecutor(AT_ONCE) as pool:
        for name in files:
            try:
                one_file(name, options, modes, lowering, pool, count)
            except (ParserError, OSError) as error:
                if not (os.path.isdir(path) if isinstance(error, (TextError, OSError)) else count.done > len(count.unread)):
                    raise
                count.unread.append((name, error))
            count.done += 1
            count.tell()
    count.tell(last=True)
    print("\n".join(count.summary()))
    return 1 if count.unread or count.refused else 0


def one_file(name, options, modes, lowering, pool, count):
    """Lowers the pieces of one file."""
    with open(name, "rb") as file:
        source = pieces.Source(file.read(), options)
    built = [(piece, source.build(piece)[0]) for piece in source.pieces if not modes.isdisjoint(piece.modes)]
    work = [(piece, mode, document) for piece, document in built for mode in piece.modes if mode in modes]
    runs = pool.map(lambda part: program.lower(lowering, *part[1:]), work)
    for (piece, mode, document), (status, _, errors) in zip(work, runs):
        count.add(name, piece, mode, len(document["nodes"]), status, errors)
