"""The program that lowers: which one that is, and a run of it."""
import json
import os
import resource
import subprocess

TOP = os.path.dirname(os.path.dirname(os.path.dirname(os.path.abspath(__file__))))
OUT = os.path.join(TOP, "crates", "lower_tool", "out")
SMALLEST = b'{"nodes": [{"k": "Fn"}]}'


class ProgramError(Exception):
    """There is no program, and none can be built; the text is one line."""


def newest_source():
    """When a source, or a folder of them, was changed last."""
    paths = [os.path.join(TOP, "crates.txt")]
    for crate in os.scandir(os.path.join(TOP, "crates")):
        for folder, _, files in os.walk(os.path.join(crate.path, "src")):
            paths += [folder, *(os.path.join(folder, name) for name in files)]
    return max(os.stat(path).st_mtime_ns for path in paths)


def built():
    """The program that `./run` would start, or None where it would build one first."""
    newest = newest_source()
    for name in ("lower_tool", "lower_tool.unproved"):
        path = os.path.join(OUT, name)
        if os.access(path, os.X_OK) and os.stat(path).st_mtime_ns >= newest:
            return path
    return None


def find(named=None):
    """The program: the one that is named, else $LOWER_TOOL, else the one that `./run` starts, which it builds where it has to.

    The soft limit of stack is raised as far as the hard one allows, as `./run` does, since lowering takes stack by the level.
    """
    _, hard = resource.getrlimit(resource.RLIMIT_STACK)
    resource.setrlimit(resource.RLIMIT_STACK, (hard, hard))
    path = named or os.environ.get("LOWER_TOOL") or built()
    if path is None:
        run = os.path.join(TOP, "run")
        if subprocess.run([run, "body"], input=SMALLEST, stdout=subprocess.DEVNULL, check=False).returncode != 0:
            raise ProgramError("`./run body` failed, so there is no program; name one as $LOWER_TOOL")
        path = built() or run
    return path


def lower(program, mode, document):
    """Status, output and errors of one run; raises ProgramError where it can't be started."""
    text = json.dumps(document, ensure_ascii=False, separators=(",", ":")).encode()
    try:
        run = subprocess.run([program, mode], input=text, capture_output=True, check=False)
    except OSError as error:
        raise ProgramError(f"`{program}` can't be run ({error.strerror}); name a program as $LOWER_TOOL") from error
    return run.returncode, run.stdout.decode("utf-8", "replace"), run.stderr.decode("utf-8", "replace").strip()
