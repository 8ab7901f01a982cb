#!/usr/bin/env python3
"""Reads, writes and runs golden tests, whose files README.md beside this script describes.

    golden.py run PROGRAM [FOLDER..]
    golden.py list [FOLDER..]
    golden.py unpack DIRECTORY [--stored] [FOLDER..]
    golden.py print FOLDER/NAME document|output|error
    golden.py add FOLDER/NAME MODE DOCUMENT [--output FILE] [--error FILE] [--status STATUS]

FOLDER is the name of a folder beside this script, or a path of one. Without a folder it is all of them, and the examples.

run      compares what the program answers. The last line says how many tests passed and failed. The status is 0 if some passed and none
         failed, 1 if some failed, and 2 if nothing could be run.
list     prints the name and the mode of each test.
unpack   writes the tests as plain files, DIRECTORY/FOLDER/NAME.ENDING, and prints each FOLDER/NAME. With --stored it leaves out those that
         a folder's made.py makes.
print    prints a part of a test.
add      writes a new test.
"""
import argparse
import dataclasses
import difflib
import os
import re
import runpy
import shutil
import subprocess
import sys
import tempfile

HERE = os.path.dirname(os.path.abspath(__file__))
EXAMPLES = os.path.join(os.path.dirname(os.path.dirname(HERE)), "examples")
PARTS = ("document", "output", "error")
MARK = re.compile(rb"--- (document|output|error)(?: (\d+) bytes)?\n")
ANY_MARK = re.compile(rb"^--- ", re.M)
# The members of a test that are lines of its file, by what these lines begin with. The mode is the first line.
LINES = {"mode": "mode", "standard input": "standard_input", "standard output": "standard_output", "status": "status"}
# The members of a test that are plain files, by their endings.
ENDINGS = {"mode": "mode", "json": "document", "in": "standard_input", "to": "standard_output", "out": "output", "err": "error",
           "status": "status", "once": "once"}
LONGEST_LINE = 1000


class GoldenError(Exception):
    """What is wrong with a file or a folder of tests; the text is one line."""


@dataclasses.dataclass
class Test:
    """What a test gives the program, and what it expects."""

    # The name of the folder, a slash, and the name in it.
    name: str
    # The words that the program is called with, of which a test of wrong words may have none or several.
    mode: str
    # Standard input, or nothing if `standard_input` is the path of it.
    document: bytes | None = None
    output: bytes = b""
    error: bytes = b""
    # 2 if it isn't given and there is an error, 0 if there is none.
    status: int | None = None
    standard_input: str = ""
    # A path that standard output goes to. None of it comes back, so `output` is empty.
    standard_output: str = ""
    # Whether it is too large to be run with each of its requests for memory refused.
    once: bool = False

    def __post_init__(self):
        if self.status is None:
            self.status = self.usual_status()

    def usual_status(self):
        """The status that a file doesn't say."""
        return 2 if self.error else 0


def written_part(name, content):
    """A part of a file. It says its length if it wouldn't end where the next one begins."""
    if (content and not content.endswith(b"\n")) or ANY_MARK.search(content):
        return b"--- %s %d bytes\n%s\n" % (name.encode(), len(content), content)
    return b"--- %s\n%s" % (name.encode(), content)


def written(test):
    """The file of a test."""
    lines = [f"mode: {test.mode}".rstrip()]
    lines += [f"{line}: {getattr(test, LINES[line])}" for line in ("standard input", "standard output") if getattr(test, LINES[line])]
    if test.status != test.usual_status():
        lines.append(f"status: {test.status}")
    parts = [("document", test.document)] if test.document is not None else []
    if test.output or not test.error:
        parts.append(("output", test.output))
    if test.error:
        parts.append(("error", test.error))
    return "".join(line + "\n" for line in lines).encode() + b"".join(written_part(*part) for part in parts)


def read_parts(data, at):
    """The parts of a file from this place on, by their names."""
    parts = {}
    while at < len(data):
        mark = MARK.match(data, at)
        if mark is None:
            raise GoldenError(f"line {data.count(10, 0, at) + 1} begins no part")
        begin = mark.end()
        if mark[2]:
            end = begin + int(mark[2])
            at = end + 1
        else:
            following = ANY_MARK.search(data, begin)
            at = end = following.start() if following else len(data)
        parts[mark[1].decode()] = data[begin:end]
    return parts


def parsed(name, data):
    """The test that a file holds, which has to stand there as `written` writes it."""
    mark = ANY_MARK.search(data)
    if mark is None:
        raise GoldenError("there is no part")
    members = {}
    for line in data[:mark.start()].decode().splitlines():
        word, colon, value = line.partition(":")
        if not colon or word not in LINES:
            raise GoldenError(f"no such line: {line}")
        members[LINES[word]] = int(value) if word == "status" else value.strip()
    parts = read_parts(data, mark.start())
    if "mode" not in members:
        raise GoldenError("there is no mode")
    if ("document" in parts) == ("standard_input" in members):
        raise GoldenError("there is not one of a document and a path of standard input")
    if "output" not in parts and "error" not in parts:
        raise GoldenError("there is neither an output nor an error")
    test = Test(name, **members, **parts)
    if written(test) != data:
        same = os.path.commonprefix([written(test), data])
        raise GoldenError(f"not as golden.py writes it, from line {same.count(10) + 1} on")
    return test


def read(path, name=None):
    """The test of a file that ends in `.golden`."""
    try:
        with open(path, "rb") as file:
            return parsed(name or path, file.read())
    except (OSError, ValueError, GoldenError) as error:
        raise GoldenError(f"{path}: {error}") from error


def read_files(base, name):
    """The test whose parts stand in plain files, as those of the examples do."""
    members = {}
    for ending, member in ENDINGS.items():
        if os.path.exists(f"{base}.{ending}"):
            with open(f"{base}.{ending}", "rb") as file:
                content = file.read()
            members[member] = content if member in PARTS else " ".join(content.decode().split())
    return Test(name, **{**members, "status": int(members.get("status", 0)), "once": "once" in members})


def write_files(test, base):
    """Writes a test as plain files, with those that it needs."""
    os.makedirs(os.path.dirname(base), exist_ok=True)
    for ending, member in ENDINGS.items():
        value = getattr(test, member)
        needed = value is not None if member == "document" else value or member in ("mode", "output")
        if not needed:
            continue
        content = value if member in PARTS else b"" if member == "once" or value == "" else f"{value}\n".encode()
        with open(f"{base}.{ending}", "xb") as file:
            file.write(content)


def folder_of(word):
    """The path of a folder that is given by its name or its path."""
    for path in (word, os.path.join(HERE, word)):
        if os.path.isdir(path):
            return os.path.abspath(path)
    raise GoldenError(f"no folder {word}")


def place_of(test):
    """The path of the folder of a test, and its name in it."""
    folder, slash, name = test.rpartition("/")
    if not slash or not name:
        raise GoldenError(f"{test} is not FOLDER/NAME")
    return folder_of(folder), name


def folders(words=()):
    """The paths of folders, of all and the examples if none is given."""
    if words:
        return [folder_of(word) for word in words]
    own = sorted(entry.path for entry in os.scandir(HERE) if entry.is_dir() and entry.name != "__pycache__")
    return [*own, EXAMPLES]


def tests_in(folder, with_made=True, unread=None):
    """The tests of a folder, those that its made.py makes behind the others. What is wrong with a file goes to `unread`, if it is given."""
    within = os.path.basename(folder)
    for entry in sorted(os.listdir(folder)):
        stem, ending = os.path.splitext(entry)
        path, name = os.path.join(folder, stem), f"{within}/{stem}"
        try:
            if ending == ".golden":
                yield read(f"{path}.golden", name)
            elif ending == ".mode":
                yield read_files(path, name)
        except GoldenError as error:
            if unread is None:
                raise
            unread.append(error)
    maker = os.path.join(folder, "made.py")
    if with_made and os.path.exists(maker):
        for test in runpy.run_path(maker)["made"]():
            yield dataclasses.replace(test, name=f"{within}/{test.name}")


def content_of(path):
    """The bytes of a file."""
    with open(path, "rb") as file:
        return file.read()


def answer(program, test, work):
    """The output, the error and the status of the program, as a shell tells it."""
    document, output, error = (os.path.join(work, part) for part in PARTS)
    for path, content in ((document, test.document or b""), (output, b"")):
        with open(path, "wb") as file:
            file.write(content)
    streams = [
        os.open(test.standard_input or document, os.O_RDONLY),
        os.open(test.standard_output or output, os.O_WRONLY),
        os.open(error, os.O_WRONLY | os.O_CREAT | os.O_TRUNC, 0o600),
    ]
    try:
        called = [program, *test.mode.split()]
        status = subprocess.run(called, stdin=streams[0], stdout=streams[1], stderr=streams[2], check=False).returncode
    finally:
        for stream in streams:
            os.close(stream)
    return content_of(output), content_of(error), status if status >= 0 else 128 - status


def lines_of(text):
    """The lines of a text, and one that says so if the last of them doesn't end."""
    *lines, rest = text.decode(errors="backslashreplace").split("\n")
    return [*lines, rest, "(no newline at the end)"] if rest else lines


def difference(what, expected, got):
    """The lines that say how an output or an error differs."""
    line = os.path.commonprefix([expected, got]).count(10)
    lines = [lines_of(text) for text in (expected, got)]
    same = os.path.commonprefix([text[line] if line < len(text) else "" for text in lines])
    yield f"{what} differs from line {line + 1}, column {len(same) + 1} on:"
    for changed in difflib.unified_diff(*lines, f"expected {what}", what, n=1, lineterm=""):
        yield changed if len(changed) <= LONGEST_LINE else f"{changed[:LONGEST_LINE]} .. and {len(changed) - LONGEST_LINE} more characters"


def wrong_in(test, output, error, status):
    """The lines that say what is wrong with an answer, the first one in short."""
    wrong, lines = [], []
    if status != test.status:
        wrong.append("status")
        lines.append(f"status {status}, expected {test.status}")
    for what, expected, got in (("output", test.output, output), ("error", test.error, error)):
        if got != expected:
            wrong.append(what)
            lines += difference(what, expected, got)
    return [f"FAILED {test.name}: {' '.join(wrong)}", *(f"  {line}" for line in lines)] if wrong else []


def run(words):
    """Runs tests against a program."""
    program = shutil.which(words.program)
    if program is None:
        raise GoldenError(f"no program {words.program}")
    passed, failed, unread = 0, 0, []
    with tempfile.TemporaryDirectory() as work:
        for folder in folders(words.folder):
            for test in tests_in(folder, unread=unread):
                wrong = wrong_in(test, *answer(program, test, work))
                passed, failed = passed + (not wrong), failed + bool(wrong)
                if wrong:
                    print("\n".join(wrong), flush=True)
    for error in unread:
        print(f"FAILED {error}")
    failed += len(unread)
    print(f"{passed} passed, {failed} failed")
    return 0 if passed and not failed else 1


def list_tests(words):
    """Prints the name and the mode of each test."""
    for folder in folders(words.folder):
        for test in tests_in(folder):
            print(f"{test.name}: {test.mode}")


def unpack(words):
    """Writes tests as plain files."""
    for folder in folders(words.folder):
        for test in tests_in(folder, not words.stored):
            write_files(test, os.path.join(words.directory, test.name))
            print(test.name)


def print_part(words):
    """Prints a part of a test, which may be one that a folder makes."""
    folder, name = place_of(words.test)
    for test in tests_in(folder):
        if test.name.endswith(f"/{name}"):
            sys.stdout.buffer.write(getattr(test, words.part) or b"")
            return
    raise GoldenError(f"no test {words.test}")


def add(words):
    """Writes a new test."""
    parts = {part: content_of(path) for part, path in (("output", words.output), ("error", words.error)) if path}
    if not parts:
        raise GoldenError("there is neither an output nor an error")
    folder, name = place_of(words.test)
    test = Test(words.test, words.mode, content_of(words.document), status=words.status, **parts)
    path = os.path.join(folder, f"{name}.golden")
    with open(path, "xb") as file:
        file.write(written(test))
    print(path)


def command_line():
    """What the words of the command line may be."""
    parser = argparse.ArgumentParser(description=__doc__, formatter_class=argparse.RawDescriptionHelpFormatter)
    commands = parser.add_subparsers(required=True, metavar="COMMAND")
    parts = {}
    for name, task in (("run", run), ("list", list_tests), ("unpack", unpack), ("print", print_part), ("add", add)):
        parts[name] = commands.add_parser(name, help=task.__doc__)
        parts[name].set_defaults(task=task)
    parts["run"].add_argument("program")
    parts["unpack"].add_argument("directory")
    parts["unpack"].add_argument("--stored", action="store_true")
    for name in ("run", "list", "unpack"):
        parts[name].add_argument("folder", nargs="*")
    for name in ("print", "add"):
        parts[name].add_argument("test")
    parts["print"].add_argument("part", choices=PARTS)
    for name in ("mode", "document", "--output", "--error"):
        parts["add"].add_argument(name)
    parts["add"].add_argument("--status", type=int)
    return parser


def main():
    """Does what the command line says."""
    words = command_line().parse_args()
    try:
        return words.task(words) or 0
    except (OSError, GoldenError) as error:
        print(f"golden.py: {error}", file=sys.stderr)
        return 2


if __name__ == "__main__":
    # As the module that made.py imports, so that there is one class of tests.
    import golden

    sys.exit(golden.main())
