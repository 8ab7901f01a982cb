#!/usr/bin/env python3
"""Counts the instructions of a run on documents of 20,000 nodes, by part.

    bench/parts.py [--program PATH] [--shape NAME] [--nodes NODES]

The program is one that `bench/marked.py --bare` made, in which the parts stand apart: parsing the text, the first fault, the typed
tree, lowering with storing, and the listing. What is left is mostly letting go of the document, of the tree and of the stores. The
count is callgrind's (valgrind has to be there), so it doesn't depend on what else the machine does. Prints instructions a node.
"""

import argparse
import os
import re
import subprocess
import sys
import tempfile

from bench import MODES, make
from marked import PARTS, mark_at

SHAPES = ["wide", "calls", "closures", "fors", "arms", "nested", "preludes"]
NODES = 20_000
HEADS = ["parse", "first fault", "typed", "lowering", "listing"]
# A line of callgrind's, where a part of the program begins, calls another, or has a cost of its own.
FILE_OR_NAME = re.compile(r"(fn|cfn)=\((\d+)\)(?: (.*))?")


def inclusive(path):
    """The cost of all calls of each function from another one, by name, and of the whole run, from callgrind's file."""
    names, costs, callee, total, here = {}, {}, None, 0, None
    with open(path, encoding="utf-8") as lines:
        for line in lines:
            if found := FILE_OR_NAME.match(line):
                place, number, name = found.groups()
                names[number] = name or names[number]
                if place == "fn":
                    here = names[number]
                else:
                    callee = names[number]
            elif line.startswith("calls="):
                cost = int(next(lines).split()[1])
                if callee != here:
                    costs[callee] = costs.get(callee, 0) + cost
            elif line.startswith(("summary:", "totals:")):
                total = int(line.split()[1])
    return costs, total


def counted(program, name, nodes):
    """The instructions of each part, and of the whole run, and how many nodes there are."""
    with tempfile.TemporaryDirectory() as folder:
        path, out = (os.path.join(folder, it) for it in ("document.json", "callgrind"))
        count = make(name, nodes, path)
        command = ["valgrind", "--tool=callgrind", "--callgrind-out-file=" + out, program, MODES[name]]
        with open(path, "rb") as document:
            subprocess.run(command, stdin=document, stdout=subprocess.DEVNULL, stderr=subprocess.DEVNULL, check=True)
        costs, total = inclusive(out)
    parts = dict.fromkeys(HEADS, 0)
    for function, cost in costs.items():
        if part := mark_at(re.sub(r"'\d+$", "", function), PARTS):
            parts[part] += cost
    return parts, total, count


def main():
    options = argparse.ArgumentParser(description=__doc__.split("\n")[0])
    options.add_argument("--program", required=True)
    options.add_argument("--shape", choices=SHAPES)
    options.add_argument("--nodes", type=int, default=NODES)
    given = options.parse_args()
    if not os.access(given.program, os.X_OK):
        sys.exit("parts: no program %s; `bench/marked.py --bare` makes one" % given.program)
    print("%-10s" % "shape" + "".join("%12s" % head for head in ["total", *HEADS, "rest"]))
    for name in [given.shape] if given.shape else SHAPES:
        parts, total, count = counted(given.program, name, given.nodes)
        shown = [total, *[parts[head] for head in HEADS], total - sum(parts.values())]
        print("%-10s" % name + "".join("%12.0f" % (cost / count) for cost in shown), flush=True)


if __name__ == "__main__":
    main()
