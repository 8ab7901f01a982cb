"""Sees that a recorder keeps all that the lists of crates/thm_enabled have of a document outside of what is disabled.

    scripts/questions PROGRAM [FOLDER..]

PROGRAM is that of lower_cached, FOLDER a folder of golden tests; without one they are all of tests/golden, and the examples. Of each
golden test with a listing the log has to hold each question of the list, except for those that lowering leaves out for a reason that
docs/CACHING.md names, and nothing else. Of each sort one has to be required, or else nobody would see that a recorder forgets it: but for
module_of, which is asked of an alias alone, before the program records, and for what is asked of single contexts, which are one question
of the list.
"""
import collections
import os
import subprocess
import sys
import threading

import golden
from questions.compare import compare, sort_of
from questions.document import Document
from questions.items import questions

SORTS = ("cfg", "cfg_pred", "hygiene", "context", "crate_root", "outer_macro", "block", "skip", "container", "resolve", "alias",
         "lang_items", "new_range", "expand", "macro_def", "legacy_macro", "expansion_limit")
# A tree has up to 256 levels, and so has each of up to 64 expansions in one another, of some ten calls a level.
STACK, CALLS = 1 << 30, 200_000
SHOWN = 3


def log_of(program, test):
    """What lowering a test's document asks, as lines."""
    run = subprocess.run([program, "log", *test.mode.split()], input=test.document, stdout=subprocess.PIPE, check=True)
    return run.stdout.decode().splitlines()


def judged(program, test):
    """The comparison of a test."""
    return compare(*questions(Document(test.document), test.mode.strip()), log_of(program, test))


def show(test, comparison):
    """Says what is wrong with a test."""
    for what, lines in (("not in the log", comparison.missing), ("needless", comparison.needless)):
        for line in lines[:SHOWN]:
            print(f"FAILED {test.name}: {what}: {line}", flush=True)


def tests(folders):
    """The golden tests that have a listing."""
    for folder in golden.folders(folders):
        for test in golden.tests_in(folder):
            if test.document is not None and test.status == 0 and not test.standard_output:
                yield test


def run(program, folders):
    """Compares all tests, and answers the status."""
    count = failed = 0
    required, left_out = collections.Counter(), collections.Counter()
    for test in tests(folders):
        comparison = judged(program, test)
        count, failed = count + 1, failed + (not comparison.is_right())
        required.update(comparison.required)
        left_out.update(comparison.left_out)
        show(test, comparison)
    for sort in SORTS:
        print(f"{sort:16} {required[sort]:6} required")
    for reason, number in sorted(left_out.items()):
        print(f"left out: {reason} {number}")
    lacking = [sort for sort in SORTS if not required[sort]]
    print(f"questions: {sum(required.values())} required in {count} golden tests, of which {failed} failed"
          + (f"; none of {' '.join(lacking)}" if lacking else ""))
    return 1 if failed or lacking or not count else 0


def main(words=None):
    """Runs the command in a thread whose stack holds the deepest trees."""
    words = sys.argv[1:] if words is None else words
    if not words or not os.access(words[0], os.X_OK):
        print("usage: questions PROGRAM [FOLDER..]", file=sys.stderr)
        return 2
    threading.stack_size(STACK)
    sys.setrecursionlimit(CALLS)
    status = []
    thread = threading.Thread(target=lambda: status.append(run(os.path.realpath(words[0]), words[1:])))
    thread.start()
    thread.join()
    return status[0] if status else 1
