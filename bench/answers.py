#!/usr/bin/env python3
"""Answers dear goals of a crate by `grind`: bench/answers.py CRATE DIR [--least N] [--using N], and then
bench/answers.py CRATE --refused FILE

DIR is what `rattle check --incremental DIR` wrote for the crate, from nothing. But for the goals that mutants are tried at (`goals` in
mutants/measured.txt), each goal that took N steps or more and has no answer is answered by `grind (arith, common_steps)` in the
`Answers.antt` of its function, with the lemmas that the function is `using` behind these. N is what --least says, half a million if it
isn't said, and for goals of functions that are `using` lemmas what --using says, if it is said. Check the crate again over DIR; FILE holds
what that check says, and the answers of that form which it refuses are taken out. Then `rt fmt`, and try the crate's mutants again: one may
take a goal away that is answered, or make `grind` fail at a further one. Of goals in cycles it isn't known which mutants are tried at them.
"""
import argparse
import os
import re
import sys
from functools import cache

sys.dont_write_bytecode = True
TOP = os.path.dirname(os.path.dirname(os.path.abspath(__file__)))
sys.path.insert(1, os.path.join(TOP, "tools"))
from goals import goals_in  # noqa: E402
from mutants.measured import Measured  # noqa: E402

CRATES = os.path.join(TOP, "crates")
USED = {"arith": "Rattle.std.proofs.Common", "common_steps": "Rattle.std.proofs.lemmas.Grind"}
REFUSED = re.compile(r"^(?:\./)?proofs/(\S+)/Answers\.antt:\d+:\d+: error: `([^`]+)`", re.M)


def read(path):
    if not os.path.exists(path):
        return ""
    with open(path, encoding="utf-8") as file:
        return file.read()


def write(path, text):
    os.makedirs(os.path.dirname(path), exist_ok=True)
    with open(path, "w", encoding="utf-8") as file:
        file.write(text)


def first_goals(folder):
    """The goals that mutants are tried at, each with its function."""
    measured = Measured(f"{folder}/mutants")
    goals = {name: measured.words(name, "goals") for name in measured.mutants()}
    functions = {name: re.search(r"^function: (.*)", read(f"{folder}/mutants/{name}.edit"), re.M)[1] for name in goals}
    return {(functions[name].replace("::", "."), found[0]) for name, found in goals.items() if found}


def attribute(folder, function):
    """What is written above a function, and whether it, or its block, has type parameters."""
    module, word = function.split(".")[0], function.split(".")[-1].lstrip("+")
    text = read(f"{folder}/src/{module}.rt") or read(f"{folder}/src/lib.rt")
    heads = [*re.finditer(rf"^( *)(?:pub(?:\(\w+\))? )?(?:const )?(?:unsafe )?fn {re.escape(word)}\b(<[^>(]*\b[A-Z])?", text, re.M)]
    blocks = [*re.finditer(r"^(?:impl(<[^>]*\b[A-Z]\w*)?|(?:pub )?(trait))\b.*", text, re.M)]
    around = {it: next((block for block in reversed(blocks) if it[1] and block.start() < it.start()), None) for it in heads}
    owner = function.rpartition(".")[0].rpartition(".")[2]
    if not (head := next((it for it in heads if around[it] and owner_of(around[it][0]) == owner), heads and heads[0])):
        return "", False
    before, block = text[: head.start()], around[head]
    return before[before.rfind("\n\n") + 1 :], bool(head[2] or block and (block[1] or block[2]))


def owner_of(block):
    """What goals are named by that are of the methods in a block: its type, and behind it the trait."""
    trait, _, type_ = re.sub(r"^impl(<.*?>(?= ))?|\{.*|'\w+", "", block).rpartition(" for ")
    return "".join(it[0].upper() + it[1:] for it in re.findall(r"\w+", f"{type_} {trait}"))


def words_of(key, attributes):
    """What stands between the parentheses behind that word."""
    return [it.strip() for found in re.findall(rf"\b{key}\(([^()]*)\)", attributes) for it in found.split(",") if it.strip()]


@cache
def uses_lemmas(crate, function):
    return bool(words_of("using", attribute(f"{CRATES}/{crate}", function)[0]))


def binders(answers, function, is_generic):
    """What an answer takes: as in the function's other answers, if it has some."""
    if found := re.search(r"^[\w-]+ ((?:g )?(?:t )?)c =", answers, re.M):
        return found[1]
    return ("g " if is_generic else "") + ("t " if "+" in function else "")


def with_use(text, module, name):
    """A text with an import."""
    if found := re.search(rf"^use {re.escape(module)}\.\{{([^}}]*)\}}", text, re.M):
        names = found[1].split(", ")
        return text if name in names else text.replace(found[0], f"use {module}.{{{', '.join([*names, name])}}}")
    return f"use {module}.{{{name}}}\n{text}"


def answer(crate, function, names):
    """Adds answers to the file of a function, and tells how many."""
    folder = f"{CRATES}/{crate}"
    path = f"{folder}/proofs/{function.replace('.', '/')}/Answers.antt"
    above, is_generic = attribute(folder, function)
    opened, lemmas = words_of("unfolding", above), words_of("using", above)
    text = read(path) or f"use Rattle.{crate}.proofs.{function}.Goals as goal\n"
    taken = binders(text, function, is_generic)
    unfolded = f"unfolding {' '.join(it.rpartition('::')[2] for it in opened)}\n" if opened else ""
    new = [it for it in names if not re.search(rf"^pub {re.escape(it)} ", text, re.M)]
    cited = ", ".join([*USED, *(it.rpartition("::")[2] for it in lemmas)])
    text += "".join(f"\npub {it} : goal.{it}\n{unfolded}{it} {taken}c = grind ({cited})\n" for it in new)
    for name in [*opened, *lemmas]:
        module, _, word = re.sub(r"^crate\b", crate, name).replace("::", ".").rpartition(".")
        text = with_use(text, f"Rattle.{module}", word)
    for name, module in USED.items():
        text = with_use(text, module, name)
    if new:
        write(path, text)
    return len(new)


def take_out(crate, said):
    """Takes out the answers that a check refuses, and the imports that nothing needs then, and tells how many answers."""
    count = 0
    for function, name in REFUSED.findall(said):
        path = f"{CRATES}/{crate}/proofs/{function}/Answers.antt"
        own = rf"\npub {re.escape(name)} : .*\n((?:unfolding .*\n)*){re.escape(name)} .* = grind \((arith, common_steps[\w, -]*)\)\n"
        if not (found := re.search(own, read(path))):
            continue
        text, count = read(path).replace(found[0], ""), count + 1
        for word in [*found[2].split(", "), *re.findall(r"\w+", found[1].replace("unfolding ", ""))]:
            word = re.escape(word)
            if not re.search(rf"\b{word}\b", re.sub(r"^use .*", "", text, flags=re.M)):
                text = re.sub(rf"^(use .*\{{.*?)(?:, )?\b{word}\b(?=[,}}])", r"\1", text, flags=re.M).replace("{, ", "{")
        text = re.sub(r"^use \S+\.\{\}\n", "", text, flags=re.M)
        if re.search(r"^pub ", text, re.M):
            write(path, text)
        else:
            os.remove(path)
    return count


def main():
    parser = argparse.ArgumentParser(description="Answers dear goals of a crate by `grind`.")
    parser.add_argument("crate")
    parser.add_argument("folder", nargs="?", help="what a check with --incremental wrote")
    parser.add_argument("--least", type=int, default=500_000, help="how many steps a goal takes at least that is answered")
    parser.add_argument("--using", type=int, help="the same of goals of functions that are `using` lemmas")
    parser.add_argument("--refused", metavar="FILE", help="what a check says of these answers")
    asked = parser.parse_args()
    if not (asked.folder or asked.refused and os.path.isfile(asked.refused)):
        parser.error("neither a folder nor a file is there")
    if asked.refused:
        print(f"{take_out(asked.crate, read(asked.refused))} answers are taken out")
        return
    tried, dear = first_goals(f"{CRATES}/{asked.crate}"), {}
    # What is said of the places of closures, with `++` in its name, has names that no answer can have.
    for goal in goals_in(asked.folder):
        least = asked.using if asked.using is not None and uses_lemmas(asked.crate, goal.function) else asked.least
        if goal.steps >= least and (goal.function, goal.name) not in tried and "++" not in goal.name:
            dear.setdefault(goal.function, []).append(goal.name)
    print(f"{sum(answer(asked.crate, *it) for it in dear.items())} answers for dear goals of {len(dear)} functions")


if __name__ == "__main__":
    main()
