"""What the commands have in common: words, errors and statuses, and room for deep trees."""
import contextlib
import json
import os
import sys
import threading

from .document import Options, conditions_of
from .program import ProgramError
from .tree import ParserError

STACK = 512 << 20
DEEPEST = 200_000
MODES = frozenset(("body", "fn", "type", "path"))
INTERRUPTED = 130
GRACE = 1


def add_text(parser, file, modes="what is lowered"):
    """The words that say which text is lowered, and in which modes; the other two are their help."""
    parser.add_argument("file", help=file)
    parser.add_argument("--modes", default="body", help=f"{modes}, with commas between them: body, fn, type, path")


def add_options(parser, view=False):
    """The words that say what stands around the text."""
    parser.add_argument("--cfg", action="append", metavar="ATOM",
                        help='a condition that holds, as `unix` or `feature="x"`; with --cfg "" alone none holds')
    parser.add_argument("--expand", action="append", default=[], metavar="NAME=TEXT", help="what calls of a macro become")
    parser.add_argument("--unresolved", action="store_true", help="other macros aren't found; else their calls have no expansion")
    if not view:
        parser.add_argument("--sources", action="store_true", help="the listing shows sources")
        parser.add_argument("--resolve", action="store_true",
                            help="None, Some, Ok and Err, and the file's own constants, statics and structs, stand for what they are")
        parser.add_argument("--no-blocks", action="store_true", help="blocks with items have no numbers")
        parser.add_argument("--env", metavar="JSON", help="more of `env`")


def options_of(words):
    """What the words say."""
    options = Options()
    options.conditions, options.unresolved = conditions_of(words.cfg), words.unresolved
    if any("=" not in pair for pair in words.expand):
        raise ValueError("--expand wants NAME=TEXT")
    options.expand = dict(pair.split("=", 1) for pair in words.expand)
    options.sources = getattr(words, "sources", False)
    options.resolve = getattr(words, "resolve", False)
    options.blocks = not getattr(words, "no_blocks", False)
    options.environment = environment_of(getattr(words, "env", None) or "{}")
    return options


def environment_of(text):
    """The object that `--env` holds."""
    try:
        made = json.loads(text)
    except ValueError as error:
        raise ValueError(f"--env is no JSON: {error}") from error
    if not isinstance(made, dict):
        raise ValueError("--env wants an object")
    return made


def modes_of(text):
    """The modes that `--modes` names."""
    modes = frozenset(text.split(","))
    if not modes <= MODES:
        raise ValueError(f"--modes wants some of {', '.join(sorted(MODES))}, with commas between them")
    return modes


def content(path):
    """The bytes of a file, or of standard input where the path is `-`."""
    if path == "-":
        return sys.stdin.buffer.read()
    with open(path, "rb") as file:
        return file.read()


def deeply(call):
    """What a call answers, with room for deep trees."""
    sys.setrecursionlimit(DEEPEST)
    threading.stack_size(STACK)
    answer, ended = [], threading.Event()

    def run():
        try:
            answer.append((call(), None))
        except BaseException as error:  # handed on to the caller's thread
            answer.append((None, error))
        ended.set()

    threading.Thread(target=run, daemon=True).start()
    threading.stack_size(0)
    try:
        ended.wait()
    except KeyboardInterrupt:
        ended.wait(GRACE)  # what it waits for was interrupted as well, so it may tidy up
        raise
    value, error = answer[0]
    if error is not None:
        raise error
    return value


def start(name, main):
    """Runs a command and ends with its status, or with 2 and one line where something outside of it failed."""
    try:
        sys.exit(deeply(main))
    except KeyboardInterrupt:
        stop(INTERRUPTED, f"{name}: interrupted")
    except (OSError, ParserError, ProgramError, ValueError) as error:
        said = ": ".join(filter(None, (error.filename, error.strerror))) if isinstance(error, OSError) else str(error)
        stop(2, f"{name}: {' '.join(said.split())}")


def stop(status, said):
    """Ends at once with one line on standard error, and waits for no work that is still to be done."""
    print(said, file=sys.stderr, flush=True)
    with contextlib.suppress(OSError):
        sys.stdout.flush()
    os._exit(status)
