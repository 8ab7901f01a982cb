"""Blocks of traits' methods: which types they hold, and which blocks a shell can leave out."""
import re

from mutants.functions import DECLARED, GHOST, HEAD, TYPE, USE, body_of, types_for

TRAIT_BLOCK = re.compile(r"^impl\b[^{;]* for [^{;]*\{(?:\}|.*?^\})\n", re.M | re.S)
HELD = re.compile(r"^ +type \w+ = ([^;]*);", re.M)
# What stands in the body of a function that is taken as met.
ENDLESS = "loop {}"
# Methods that are called where their names don't stand.
UNWRITTEN = "drop clone eq ne partial_cmp cmp lt le gt ge deref deref_mut index index_mut from into_iter next add sub not neg".split()


def types_in(texts, files):
    """The types that these texts name, and those that blocks of traits' methods for them hold in these files."""
    blocks = [it[0] for file in files.values() for it in TRAIT_BLOCK.finditer(file)]
    held = [(types_for(it), {word for own in HELD.findall(it) for word in TYPE.findall(own)}) for it in blocks]
    types = {word for text in texts for word in TYPE.findall(text)}
    while more := {word for owner, words in held if owner <= types for word in words} - types:
        types |= more
    return types


def without_blocks(files):
    """These files without the blocks of traits' methods for types that nothing else names, where no block for such a type has a body."""
    blocks = {it[0] for file in files.values() if "macro_rules!" not in file for it in TRAIT_BLOCK.finditer(file)}
    whole = {types_for(it) for it in blocks if not is_emptied(it)}
    spare = {it for it in blocks if types_for(it) not in whole}

    def leave_out(text, types):
        return TRAIT_BLOCK.sub(lambda it: "" if it[0] in spare and not types_for(it[0]) <= types else it[0], text)

    types = types_in([DECLARED.sub("", leave_out(GHOST.sub("", USE.sub("", it)), set())) for it in files.values()], files)
    return {file: leave_out(text, types) for file, text in files.items()}


def is_emptied(block):
    """Whether each method of a block has an endless loop for a body."""
    bodies = (slice(*body_of(block, head)) for head in HEAD.finditer(block))
    return all(block[it].strip() in ("", ENDLESS) for it in bodies)
