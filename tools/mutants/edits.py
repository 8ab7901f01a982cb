"""Applies edits: the pairs of an old and a new text that a mutant makes in files of its crate."""
import os

FOLDERS = ("src/", "specs/")


def changed_text(pairs, text):
    """A text as these pairs make it, or nothing if one of them doesn't stand in it exactly once."""
    for _, old, new in pairs:
        if text.count(old) != 1:
            return ""
        text = text.replace(old, new)
    return text


def changed_files(mutants, folder):
    """The files that these mutants change, as they make them; or why one of them can't be applied."""
    texts = {}
    for mutant in mutants:
        for file, old, new in mutant.pairs:
            if not os.path.isfile(f"{folder}/{file}") or not file.startswith(FOLDERS):
                return {}, f"there is no file {file} below src/ or specs/"
            text = texts[file] if file in texts else text_of(f"{folder}/{file}")
            if not old or text.count(old) != 1:
                return {}, f"this stands in {file} {text.count(old) if old else 0} times, and not once: {old}"
            texts[file] = text.replace(old, new)
    return texts, ""


def text_of(path):
    """What stands in a file."""
    with open(path, encoding="utf-8") as file:
        return file.read()
