"""Trees that are kept in files, so that tests need no parser.

A file holds one tree or several. Each begins with a line `text "..."`, the text that was parsed; a node is a line `KIND START END`, a
token one with its text behind that; each is indented by its depth.
"""
import json

from .tree import Node, parse


def lines_of(node, depth=0):
    """The lines of a tree."""
    head = f"{' ' * depth}{node.kind} {node.start} {node.end}"
    if node.children is None:
        yield f"{head} {json.dumps(node.text, ensure_ascii=False)}"
        return
    yield head
    for child in node.children:
        yield from lines_of(child, depth + 1)


def written(trees):
    """The file that holds these trees, by text."""
    out = []
    for text, tree in trees.items():
        out.append("text " + json.dumps(text.decode(), ensure_ascii=False))
        out.extend(lines_of(tree))
    return "\n".join(out) + "\n"


def read(file):
    """The trees in a file's text, by the bytes that were parsed."""
    trees, stack = {}, []
    for line in file.split("\n"):
        if line.startswith("text "):
            text, stack = json.loads(line[5:]).encode(), []
        elif line:
            depth = len(line) - len(line.lstrip(" "))
            kind, start, end, *token = line.strip().split(" ", 3)
            node = Node(kind, int(start), int(end), None if token else [], json.loads(token[0]) if token else None)
            del stack[depth:]
            if stack:
                stack[-1].children.append(node)
            else:
                trees[text] = node
            stack.append(node)
    return trees


class Keeper:
    """Parses texts as the parser does, from kept trees, or notes the trees that the parser makes."""

    def __init__(self, trees=None):
        self.trees, self.live = trees or {}, trees is None

    def __call__(self, text):
        if self.live:
            self.trees[text] = parse(text)
        return self.trees[text]
