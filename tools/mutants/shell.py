"""Shells: copies of a crate in which some functions are proved, and all others are taken as met. README.md says what for.

What is proved stands in twins of functions, which nobody calls: a function's text and proof files once more under another name, with a
mutant or with nothing wrong. A twin of a function in a cycle is in none: it calls the others as they are, its answers are those of the
cycle's that are about it, and none about the cycle's measure. Functions that can't have twins keep their bodies and proof files under their
own names. A function that these name keeps its contract, and has an endless loop for a body and a hole for a proof: what rests on it rests
on its contract, and so can't tell. Any other one is left out, since a check lays out the types of each function that it finds, which in a
large crate costs more than the proofs of a few. Methods of traits can't be left out alone, and what their proofs are called isn't known:
those that no twin can call, by name or by a type that its body names, have an endless loop for a body too, and no proof. Where no other
code names a type any more, all blocks of traits' methods for it are left out. What can be neither emptied nor left out stays as it is, with
its proof: constant functions, what macros write, and what `rt fmt` would write otherwise.
"""
import glob
import os
import re
import shutil

from mutants.edits import changed_text, text_of
from mutants.functions import CYCLE, USE, WORD
from mutants.imports import without_names
from mutants.proof_texts import HOLE, HOLE_MODULE, met_proof, of_member, of_twin, with_goals_met
from mutants.trait_blocks import ENDLESS, UNWRITTEN, types_in, without_blocks

MODULE = re.compile(r"^(?:pub(?:\(\w+\))? )?mod (\w+)", re.M)
CITED = re.compile(r"\bRattle\.\w+\.(?:proofs|specs\.contracts)\.([\w.]+)|\bproofs::([\w:]+)")


class Shell:
    """Makes a shell of the copy of a crate in the folder `room`, with these twins, and where the functions of these mutants stay. Where it
    is known at which goals the mutants are refused, all but the first are taken as met."""

    def __init__(self, crate, room, functions, mutants, twins, is_known):
        self.crate, self.room, self.functions, self.mutants, self.twins = crate, room, functions, mutants, twins
        self.stay = functions.of(mutants)
        self.others = self.take_proofs() + sorted(self.methods(), key=lambda it: (it.file, it.begin))
        for mutant in twins:
            self.copy_proof(mutant)
            self.take_goals(mutant.proof_of(mutant.twin), [*mutant.met, *(mutant.goals[1:] if is_known else [])])
        for mutant in mutants:
            self.take_goals(mutant.proof, mutant.goals[1:] if is_known else [])
        self.write_sources()
        os.makedirs(f"{room}/proofs", exist_ok=True)
        with open(f"{room}/proofs/Lib.antt", "a", encoding="utf-8") as lib:
            lib.write(f"\nmod {HOLE_MODULE}\n")
        self.write(HOLE_MODULE, HOLE)

    def take_proofs(self):
        """Removes the proofs of the functions that are taken as met, and answers these."""
        kept = {it.proof for it in self.stay if it.name}
        others = [it for it in self.functions.all if it not in self.stay and it.can_be_emptied() and it.proof not in kept]
        for it in others:
            shutil.rmtree(f"{self.room}/proofs/{it.proof}", ignore_errors=True)
        return others

    def methods(self):
        """The methods of traits whose bodies can go as well, and have no proof then: no function that is proved can call them by name, or
        by a trait of a type that its body names."""
        functions, edited = self.functions, [*self.mutants, *self.twins]
        whole = {it for it in functions.all if "macro_rules!" in functions.texts[it.file] or it.cycle}
        proved = self.stay | {it.within for it in self.twins}
        texts = [*(it.body for it in proved), *(new for mutant in edited for *_, new in mutant.pairs)]
        types = types_in(texts, functions.texts)
        found = {it for it in functions.all if not it.name and it.has_plain_body() and it not in self.stay | whole}
        found = {it for it in found if not it.types() <= types}
        words = {*UNWRITTEN, *(word for text in texts for word in WORD.findall(text))}
        while called := {it for it in found if it.word in words}:
            found -= called
            words |= {word for it in called for word in WORD.findall(it.body)}
        self.drop_proofs(found, {it.proof for it in functions.all if it.name} | {it.proof for it in self.mutants})
        return found

    def drop_proofs(self, methods, others):
        """Removes the proofs that methods of traits may have, but none of these others."""
        stay = {it.word for it in self.functions.all if not it.name and it not in methods}
        words = {it.word for it in methods} - stay
        for path in {path for it in words for path in glob.glob(f"{self.room}/proofs/**/{it}/", recursive=True)}:
            is_proof = os.path.isfile(f"{path}Answers.antt") or os.path.isfile(f"{path}Invariants.antt")
            if is_proof and os.path.relpath(path, f"{self.room}/proofs") not in others:
                shutil.rmtree(path)

    def write_sources(self):
        """Writes the sources of the shell."""
        functions, others = self.functions, self.others
        proved = [it for it in functions.all if it not in others or it in {mutant.within for mutant in self.twins}]
        used = functions.words_used(proved, [*self.mutants, *self.twins]) | self.cited_words()
        left_out = {it.word for it in others if it.name} - used
        texts = {file: self.source(text, [it for it in others if it.file == file], left_out) for file, text in functions.texts.items()}
        for file, text in without_blocks(texts).items():
            with open(f"{self.room}/src/{file}", "w", encoding="utf-8") as whole:
                whole.write(text)

    def cited_words(self):
        """The words of the functions that proofs and definitions cite, and of modules."""
        paths = [path for part in ("specs", "proofs") for path in glob.glob(f"{self.room}/{part}/**/*.antt", recursive=True)]
        texts = [*self.functions.texts.values(), *map(text_of, paths)]
        cited = {word for text in texts for found in CITED.findall(text) for word in re.split(r"\W+", "".join(found))}
        return cited | {word for text in texts for word in MODULE.findall(text)}

    def source(self, text, functions, left_out):
        """The text of a file without the functions that are left out, and without the bodies and places in cycles of the others, with twins
        in their places or beside them."""
        for it in sorted(functions, key=lambda it: -it.begin):
            twins = "".join(self.twin(mutant, text[it.start : it.close]) for mutant in self.twins if mutant.within is it)
            if it.name and it.word in left_out:
                text = text[: it.start] + twins + text[it.close :]
                continue
            text = f"{text[: it.begin]}{it.head[2]}    {ENDLESS}\n{text[it.end : it.close]}{twins}{text[it.close :]}"
            text = text[: it.head.start()] + CYCLE.sub("", it.head[1]) + text[it.head.end(1) :]
            if it.name:
                self.write(f"{it.name.replace('::', '/')}/Proof", met_proof(self.crate, it.name.split("::")))
        return USE.sub(lambda found: without_names(found[0], left_out), text)

    def twin(self, mutant, text):
        """The text of a mutant's twin, given that of its function."""
        text = changed_text(mutant.pairs, CYCLE.sub("", text))
        return "\n" + re.sub(rf"\bfn {mutant.within.word}\b", f"fn {mutant.within.word}{mutant.twin}", text, count=1)

    def copy_proof(self, mutant):
        """Writes the proof files of a mutant's twin."""
        own, there = f"{self.functions.folder}/proofs/{mutant.proof}", f"{self.room}/proofs/{mutant.proof_of(mutant.twin)}"
        if not os.path.isdir(own):
            return
        shutil.copytree(own, there)
        word = mutant.within.word
        for path in glob.glob(f"{there}/**/*.antt", recursive=True):
            answers = text_of(path)
            if mutant.is_in_cycle():
                answers = of_member(answers, word, "" if self.functions.is_alone(mutant.within) else f"{word}-")
            with open(path, "w", encoding="utf-8") as file:
                file.write(of_twin(answers, self.crate, mutant.function, mutant.proof, mutant.twin))

    def take_goals(self, proof, goals):
        """Answers these goals of a proof by a hole. What begins with `+` counts goals, and names none."""
        path = f"{self.room}/proofs/{proof}/Answers.antt"
        if goals := [it for it in goals if it[0] != "+"]:
            answers = text_of(path) if os.path.isfile(path) else ""
            self.write(f"{proof}/Answers", with_goals_met(answers, self.crate, proof, goals))

    def write(self, place, text):
        """Writes a file below proofs/."""
        path = f"{self.room}/proofs/{place}.antt"
        os.makedirs(os.path.dirname(path), exist_ok=True)
        with open(path, "w", encoding="utf-8") as it:
            it.write(text)
