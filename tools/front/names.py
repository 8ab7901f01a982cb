"""Which binding each name in a body means, as the program `scopes_tool` says, where it is there."""
import json
import os
import re
import subprocess

from . import program

OUT = os.path.join(program.TOP, "crates", "scopes_tool", "out")
READ = re.compile(r"read \d+ (\S+) .* (?:\d+|-) = .*#(\d+)((?:@[\d:-]+)*)")


def find():
    """The program: $SCOPES_TOOL, else the one that the full check or `scripts/build-unproved` left, or None."""
    places = [os.path.join(OUT, name) for name in ("scopes_tool", "scopes_tool.unproved")]
    return next((path for path in filter(None, [os.environ.get("SCOPES_TOOL"), *places]) if os.access(path, os.X_OK)), None)


def node_of(word):
    """The node of a document that a word names, or None where it is one of an expansion, or there is none."""
    return int(word) if word.isdigit() else None


def meanings(lines):
    """What one body's lines say: for each binding that a name means the nodes of its patterns, and those of the names, in order."""
    found = {}
    for line in lines:
        read = READ.fullmatch(line)
        if not read:
            continue
        patterns, names = found.setdefault(int(read[2]), ([node_of(word) for word in read[3].split("@")[1:]], []))
        names.append(node_of(read[1]))
    return [([it for it in patterns if it is not None], [it for it in names if it is not None]) for patterns, names in found.values()]


def ask(tool, documents):
    """What the names in each function's body mean, or None for all where the program can't be run or says something else."""
    lines = [json.dumps(it, ensure_ascii=False, separators=(",", ":")) for it in documents]
    try:
        said = subprocess.run([tool], input="".join(line + "\n" for line in lines).encode(), capture_output=True, check=True)
    except (OSError, subprocess.SubprocessError):
        return None
    bodies, body = [], []
    for line in said.stdout.decode("utf-8", "replace").splitlines():
        if line == "end":
            bodies.append(meanings(body))
            body = []
        else:
            body.append(line)
    return bodies if len(bodies) == len(documents) else None
