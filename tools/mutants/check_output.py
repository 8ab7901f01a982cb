"""Reads what a check says of functions, theorems and lemmas, and makes verdicts of that."""
import re
from functools import cache

from mutants.edits import text_of

# Verdicts. What a mutant is for is proved where it survived; one that waits has to be tried (again); of one that is unread a check says
# nothing that counts.
KILLED, SURVIVED, WAITS, UNREAD = "killed", "survived", "waits", "unread"
# What an error says that tells only of a name which an answer cites, or of what it rests on.
OF_NAMES = re.compile(
    r"is not in scope|has no |is not admitted|was not admitted|not checked: |: module `[^`]*`$|: record `[^`]*`(?: \(nearest: [^)]*\))?$"
)
# That of an answer to a goal which there isn't.
NO_GOAL = re.compile(r"`(\S+)`: `goal\.(\S+)`: module `")
NO_LONGER = "an answer no longer fits: "


def said_of(crate, function, proof, said):
    """What a check says of a function, and its errors in the files of its proof."""
    found = re.search(rf"^fn {crate}::{re.escape(function)}: (.*)$", said, re.M)
    how = found[1] if found else "nothing is said of it"
    return how, re.findall(rf"^(?:\./)?proofs/{re.escape(proof)}/\w+\.antt:\d+:\d+: error: (.*)$", said, re.M)


def reason(how, errors):
    """Why a function is refused for its own sake, or nothing."""
    if goals := re.search(r"`search` did not prove [^;]*", how):
        return goals[0]
    own = [it for it in errors if not OF_NAMES.search(it)]
    tactics = [it for it in own if re.search(r"`(grind|search|omega)`", it)]
    return tactics[0] if tactics else f"{NO_LONGER}{own[0]}" if own else ""


def is_proved(crate, how, errors):
    """Whether a check says so of a function. In a shell it may rest on the hole of what is taken as met."""
    return how == "proved" or not errors and how in ("no holes", f"depends on a hole in `Rattle.{crate}.proofs.TakenAsMet.taken_as_met`")


def verdict_of(crate, function, proof, said):
    """What a check says of the function of a mutant in a body: the verdict, and why."""
    how, errors = said_of(crate, function, proof, said)
    if is_proved(crate, how, errors):
        return SURVIVED, "proved"
    if cause := reason(how, errors):
        return KILLED, cause
    return (WAITS, how) if "it calls" in how else (UNREAD, (errors or [how])[0])


def refused_goals(crate, function, proof, said):
    """The names of what a check refuses of a function's proof, those goals first for which it finds no proof by itself. Of many it names
    some and counts the others: they are one name, `+N`. What is no goal isn't refused."""
    how, errors = said_of(crate, function, proof, said)
    errors = [it for it in errors if not NO_GOAL.match(it)]
    searched = "".join(re.findall(r"`search` did not prove ([^;]*)", how))
    answers = re.findall(rf"`Rattle\.{crate}\.proofs\.{re.escape(proof.replace('/', '.'))}\.\w+\.([^\s`]+)`", how)
    names = [*re.findall(r"`([^\s`]+)`", searched), *answers, *(it[1] for it in map(re.compile(r"`(\S+)`: ").match, errors) if it)]
    return list(dict.fromkeys([*names, *(f"+{it}" for it in re.findall(r"and (\d+) more", searched))]))


def lacks_goal(crate, function, proof, said, goals):
    """Whether one of these is no goal of a function's proof, for which there is an answer."""
    errors = map(NO_GOAL.match, said_of(crate, function, proof, said)[1])
    return any(it and it[1] in goals for it in errors)


def broken_units(crate, theorem, said):
    """What a check refuses of a theorem, each with its reason: the theorem, or those of its clauses that it names; and what can't be read
    of it with a question mark. A theorem rests on lemmas, too, which a definition can break."""
    how, errors = said_of(crate, theorem, theorem.replace("::", "/"), said)
    if is_proved(crate, how, errors):
        return {}
    words = " ".join([how, *errors])
    lemmas = (it for it in re.findall(r"^(?:\./)?proofs/[A-Z]\w*\.antt:\d+:\d+: error: (.*)$", said, re.M) if not OF_NAMES.search(it))
    why = next(filter(None, [reason(how, errors).removeprefix(NO_LONGER), *lemmas]), "")
    clauses = re.findall(r"returns-clause-(\w+)", words)
    if not why or not re.match("not proved|no proof", how) or clauses and re.search(r"and \d+ more", words):
        return {f"{theorem}?": (errors or [how])[0]}
    return {f"{theorem}:{it}": why for it in clauses} or {theorem: why}


@cache
def lines_of(path):
    """The lines of a file."""
    return text_of(path).splitlines()


def broken_lemmas(folder, said):
    """The lines of lemmas that a check refuses for their own sake, each with its reason: @FILE.LEMMA+N is the Nth behind its first one."""
    broken = {}
    for file, at, name, why in re.findall(r"^(?:\./)?proofs/((?:[\w+]+/)*[A-Z]\w*)\.antt:(\d+):\d+: error: `(\S+)`: (.*)$", said, re.M):
        if file.split("/")[-1] not in ("Answers", "Invariants", "Proof") and not OF_NAMES.search(why):
            lines = lines_of(f"{folder}/proofs/{file}.antt")
            first = next((n for n, it in enumerate(lines, 1) if it.lstrip().removeprefix("pub ").startswith(f"{name} ")), 0)
            broken.setdefault(f"@{file.replace('/', '.')}.{name}+{int(at) - first}", f"`{name}`: {why}")
    return broken


def failure(said):
    """Why a check's words can't be read, or nothing if they can."""
    if found := re.search(r"^(?:\./)?(?:src|specs)/\S+: error.*|^rattle: error.*|^.*error\[.*", said, re.M):
        return found[0]
    ends = re.search(r"^only=\d+ (?:proved|holes)=\d+$|^logic=", said, re.M)
    return "" if ends else "its check did not end: " + " ".join(said.splitlines()[-2:])
