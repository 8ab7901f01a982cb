#!/usr/bin/env python3
"""Stands for `rust-analyzer` in tests: prints the kept tree of the text on standard input as `rust-analyzer parse --json` does.

Status 1: no tree of this text is kept.
"""
import glob
import json
import os
import sys

HERE = os.path.dirname(os.path.abspath(__file__))
sys.path.insert(0, os.path.join(HERE, "..", "..", "tools"))
from front import kept


def as_printed(node):
    """A node as the parser prints it; the page's own matter are lines and columns."""
    made = {"kind": node.kind, "start": [node.start, 0, 0], "end": [node.end, 0, 0]}
    if node.children is None:
        return made | {"type": "Token", "text": node.text}
    return made | {"type": "Node", "children": [as_printed(child) for child in node.children]}


def main():
    """Looks for the text among all that are kept."""
    text = sys.stdin.buffer.read()
    line = "text " + json.dumps(text.decode(), ensure_ascii=False) + "\n"
    for path in glob.glob(os.path.join(HERE, "*.tree")):
        with open(path, encoding="utf-8") as file:
            content = file.read()
        if line in content:
            sys.stdout.buffer.write(json.dumps(as_printed(kept.read(content)[text]), ensure_ascii=False).encode())
            return 0
    print("no tree of this text is kept", file=sys.stderr)
    return 1


if __name__ == "__main__":
    sys.exit(main())
