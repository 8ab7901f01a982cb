"""Tests of the commands as a user calls them, with a parser that prints kept trees, and with ones that fail."""
import json
import os
import shlex
import stat
import subprocess
import sys
import tempfile

from front import program

TOOLS = os.path.join(program.TOP, "tools")
ROWS = os.path.join(program.TOP, "tests", "front_end")
KEPT_PARSER = os.path.join(ROWS, "kept_parser.py")
PYTHON = [sys.executable, "-S"]     # without packages of the machine, which take longer to look for than a call takes
SHOWN = os.path.join(ROWS, "shown.rs")


class Caller:
    """Calls commands, and compares their statuses and what they say."""

    def __init__(self, lowering, parser, tally):
        self.lowering, self.parser, self.tally, self.calls = lowering, parser, tally, 0

    def call(self, name, *words, parser=None, text=b"", lowering=None):
        """Status, standard output and standard error of one call."""
        environment = {**os.environ, "RUST_ANALYZER": parser or self.parser, "LOWER_TOOL": lowering or self.lowering}
        self.calls += 1
        command = [*PYTHON, os.path.join(TOOLS, name), *words]
        run = subprocess.run(command, input=text, capture_output=True, env=environment, check=False)
        return run.returncode, run.stdout.decode(), run.stderr.decode()

    def fails(self, status, said, name, *words, **more):
        """A call that has to fail with nothing on standard output and one line that holds these words."""
        got, output, errors = self.call(name, *words, **more)
        there = said in errors and errors.endswith("\n") and errors.count("\n") == 1
        self.tally.same(" ".join([name, *words]), "failure", (status, "", True), (got, output, there))

    def gives(self, wanted, name, *words, status=0, **more):
        """A call that has to end well, whose output the test `wanted` takes."""
        got, output, errors = self.call(name, *words, **more)
        self.tally.same(" ".join([name, *words]), "answer", (status, True), (got, wanted(output)) if got == status else (got, errors))


def script(folder, name, text):
    """A program of a few lines."""
    path = os.path.join(folder, name)
    with open(path, "w", encoding="utf-8") as file:
        file.write("#!/bin/sh\n" + text)
    os.chmod(path, os.stat(path).st_mode | stat.S_IXUSR)
    return path


def failing(caller, folder):
    """Parsers and programs that aren't there, or fail."""
    broken = script(folder, "broken", "echo no component >&2\nexit 1\n")
    silent = script(folder, "silent", "exit 0\n")
    how = "rustup component add rust-analyzer"
    for name, words in (("rust_doc.py", []), ("rust_doc.py", ["--list"]), ("view.py", [])):
        for parser in (os.path.join(folder, "nothing"), broken, silent):
            caller.fails(2, how, name, SHOWN, *words, parser=parser)
    caller.fails(2, "isn't UTF-8 at byte 3", "rust_doc.py", "-", text=b"fn \xff")
    caller.fails(2, "nothing.rs", "rust_doc.py", os.path.join(folder, "nothing.rs"))
    caller.fails(2, "$LOWER_TOOL", "view.py", SHOWN, lowering=os.path.join(folder, "nothing"))
    caller.fails(1, "no such item", "rust_doc.py", SHOWN, "--item", "nothing")
    caller.fails(2, how, "compare_upstream.py", SHOWN, parser=broken)
    for words in (("--env", "[1]"), ("--env", "{"), ("--expand", "name"), ("--modes", "bodies")):
        caller.fails(2, words[0], "rust_doc.py", SHOWN, *words, *(["--stat"] if words[0] == "--modes" else []))


def names_in(output):
    """The names in a list of items."""
    return [line.split("\t")[1] for line in output.splitlines()]


def answering(caller, folder):
    """What the commands answer about one file."""
    caller.gives(lambda output: names_in(output) == ["f", "größe", "C"], "rust_doc.py", SHOWN, "--list")
    for words in ([], ["--item", "f"], ["--item", "0"]):
        caller.gives(lambda output: json.loads(output)["nodes"][0]["r"] == [0, 119], "rust_doc.py", SHOWN, *words)
    with open(SHOWN, "rb") as file:
        caller.gives(lambda output: "größe" not in output and '"k":"ForExpr"' in output, "rust_doc.py", "-", text=file.read())
    caller.gives(lambda output: "2\t2:12\t2:16\tRetType\t-> R\n" in output, "rust_doc.py", SHOWN, "--item", "größe", "--places")
    caller.gives(lambda output: output.startswith("<!doctype html>") and output.endswith("</html>\n"), "view.py", SHOWN)
    caller.gives(lambda output: "path a::b::c\n" in output, "view.py", os.path.join(ROWS, "use_trees.rs"), "--modes", "path")
    documents = os.path.join(folder, "documents")
    caller.gives(lambda _: sorted(os.listdir(documents)) == ["0.json", "1.json", "2.json", "INDEX.tsv"],
                 "rust_doc.py", SHOWN, "--all", documents)
    caller.gives(lambda output: "all               3 " in output and "refused" in output, "rust_doc.py", SHOWN, "--stat")
    os.mkdir(os.path.join(folder, "crate"))
    for name in ("shown.rs", "paths.rs"):
        os.symlink(os.path.join(ROWS, name), os.path.join(folder, "crate", name))
    caller.gives(lambda output: "\nfn                3 " in output and "\nsignature         3 " in output,
                 "rust_doc.py", os.path.join(folder, "crate"), "--stat", "--modes", "body,fn")
    with open(os.path.join(folder, "crate", "a.rs"), "wb") as file:
        file.write(b"\xff")
    caller.gives(lambda output: "\nfn                3 " in output and "a.rs: the text isn't UTF-8" in output,
                 "rust_doc.py", os.path.join(folder, "crate"), "--stat", status=1)
    caller.gives(lambda output: "\nbroken" not in output and "refused 3: fault: N" in output, "rust_doc.py", SHOWN, "--stat", status=1,
                 lowering=script(folder, "refusing", "cat >/dev/null\necho fault: 17 >&2\nexit 2\n"))


def run(lowering, tally):
    """Tests the commands, and says how many calls that took."""
    with tempfile.TemporaryDirectory() as folder:
        caller = Caller(lowering, script(folder, "parser", f'exec {shlex.join([*PYTHON, KEPT_PARSER])} "$@"\n'), tally)
        failing(caller, folder)
        answering(caller, folder)
    return f"commands: {caller.calls} calls, different {tally.different} in all"
