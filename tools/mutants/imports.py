"""Imports of a source: takes names out of an item `use`."""
import re

from mutants.functions import WORD


def without_names(use, words):
    """An item `use` without these words, or nothing if none is left of it."""
    for word in words & set(WORD.findall(use)):
        use = re.sub(rf"(?<=[{{,\s]){word}(?: as \w+)?(?:,\s*|(?=\s*}}))", "", use)
        use = re.sub(rf"^.*\b{word};\n", "", use)
    while (closed := re.sub(r"(?:\w+::)+\{\s*\}(?:,\s*|(?=\s*[};]))", "", use)) != use:
        use = closed
    return "" if re.search(r"\buse ;", use) else use
