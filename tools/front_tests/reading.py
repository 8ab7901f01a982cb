"""Reads the listings of all golden tests back, and writes what was read again."""
import glob
import os
import re
import sys

import listing
from front import program

from . import writing

# golden.py stands beside the tests that it reads.
sys.path.append(os.path.join(program.TOP, "tests", "golden"))
import golden

BEHIND = re.compile(r"(binding|label|expansion|diag) |\Z")
READERS = {"body": (listing.Body, writing.body), "pat": (listing.Body, writing.body), "fn": (listing.Signature, writing.signature)}


def listings():
    """The listings of the golden tests, of the examples and of the front end, each with its mode and its name."""
    for folder in golden.folders():
        for test in golden.tests_in(folder, with_made=False):
            yield test.mode, test.name, test.output.decode()
    for path in glob.glob(os.path.join(program.TOP, "tests", "front_end", "*.out")):
        with open(path, encoding="utf-8", newline="") as file:
            text = file.read()
        mode = "fn" if "\nret " in f"\n{text}" else "body" if re.match("self |param |body ", text) else "another"
        yield mode, os.path.relpath(path, program.TOP), text


def run(tally):
    """Reads each listing of a mode that `listing` knows, and says how many there were."""
    count = 0
    for mode, name, text in listings():
        if mode not in READERS or not text:
            continue
        count += 1
        read, write = READERS[mode]
        try:
            written = "".join(line + "\n" for line in write(read(text)))
        except (listing.ListingError, ValueError) as error:
            written = str(error)
        wanted, got = writing.bare(text), writing.bare(written)
        if not wanted.startswith(got) or not BEHIND.match(wanted, len(got)):
            tally.same(name, "listing that is read back", wanted, got)
    return f"listings read back: {count}; different {tally.different} in all"
