#!/usr/bin/env python3
"""Times the program on documents of 1,000 to 1,000,000 nodes.

    bench/bench.py [--program PATH] [--most NODES] [--shape NAME]

Prints seconds and peak memory of one run for each shape and size, and the cost
of a node, in two parts: parsing the text, and the rest of the run. Where the cost
of a node grows with the size, something isn't linear.

A text whose only list of nodes is another member, behind a fraction, is parsed
whole and then is no document for its fraction, so a run on it costs the parsing
alone. A peak below some 16 MB is that of this script, which starts the program.
"""

import argparse
import json
import os
import subprocess
import sys
import tempfile
import time

import bodies  # noqa: F401, which lists shapes, as the next two
import macro_calls  # noqa: F401
import signatures  # noqa: F401
from nodes import MODES, SHAPES

TOP = os.path.dirname(os.path.dirname(os.path.abspath(__file__)))
BUILT = os.path.join(TOP, "crates", "lower_tool", "out", "lower_tool")
SIZES = [1_000, 10_000, 100_000, 1_000_000]
HEADS = ("shape", "nodes", "MB", "seconds", "peak MB", "parse us", "rest us", "parse B", "rest B")


def make(name, size, path):
    """Writes a document in a process of its own, and answers how many nodes it has.

    A child's peak memory is at least that of the process that started it, so this one stays small.
    """
    command = [sys.executable, os.path.abspath(__file__), "--make", name, str(size), path]
    return int(subprocess.run(command, check=True, stdout=subprocess.PIPE).stdout)


def write(name, size, path):
    """Writes a document, and beside it the text that is only parsed."""
    shape = SHAPES[name](size)
    text = json.dumps(shape.all)
    tables = json.dumps(shape.env)
    for begin, to in [('{"nodes": ', path), ('{"fraction": 0.5, "parsed": ', path + ".parsed")]:
        with open(to, "w") as document:
            document.write(begin)
            document.write(text)
            document.write(', "env": ')
            document.write(tables)
            document.write("}")
    print(len(shape.all))


def measure(program, mode, path):
    """Runs the program in a mode on a file: its status, what it said, seconds and peak memory in bytes."""
    with open(path, "rb") as document, tempfile.TemporaryFile() as errors:
        began = time.monotonic()
        child = subprocess.Popen([program, mode], stdin=document, stdout=subprocess.DEVNULL, stderr=errors)
        _, status, used = os.wait4(child.pid, 0)
        seconds = time.monotonic() - began
        errors.seek(0)
        said = errors.read().decode().strip()
    return os.waitstatus_to_exitcode(status), said, seconds, used.ru_maxrss * 1024


def main():
    options = argparse.ArgumentParser(description=__doc__.split("\n")[0])
    options.add_argument("--program", default=BUILT)
    options.add_argument("--most", type=int, default=SIZES[-1], help="leave larger documents out")
    options.add_argument("--shape", choices=sorted(SHAPES))
    options.add_argument("--make", nargs=3, metavar=("SHAPE", "SIZE", "FILE"), help="only write a document")
    given = options.parse_args()
    if given.make:
        return write(given.make[0], int(given.make[1]), given.make[2])
    if not os.access(given.program, os.X_OK):
        sys.exit("bench: no program %s; `rt run` in crates/lower_tool builds it" % given.program)
    print("%-12s %9s %9s %8s %9s %9s %9s %9s %9s" % HEADS)
    failed = False
    for name in [given.shape] if given.shape else list(SHAPES):
        for size in [size for size in SIZES if size <= given.most]:
            failed = line(given.program, name, size) or failed
    return 1 if failed else 0


def line(program, name, size):
    """Prints one line, with microseconds and bytes a node, and answers whether a run failed."""
    with tempfile.TemporaryDirectory() as folder:
        path = os.path.join(folder, "document.json")
        count = make(name, size, path)
        length = os.path.getsize(path)
        mode = MODES[name]
        status, said, seconds, peak = measure(program, mode, path)
        parse_status, parse_said, parse_seconds, parse_peak = measure(program, mode, path + ".parsed")
    wrong = []
    if (status, said) != (0, ""):
        wrong.append("status %d %s" % (status, said))
    if (parse_status, parse_said) != (2, "fault: not a document"):
        wrong.append("parsing: status %d %s" % (parse_status, parse_said))
    parts = [1e6 * parse_seconds, 1e6 * (seconds - parse_seconds), parse_peak, peak - parse_peak]
    shown = (name, count, length / 1e6, seconds, peak / 1e6, *[part / count for part in parts])
    print("%-12s %9d %9.1f %8.3f %9.1f %9.2f %9.2f %9.0f %9.0f" % shown, *wrong, flush=True)
    return bool(wrong)


if __name__ == "__main__":
    sys.exit(main())
