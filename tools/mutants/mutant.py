"""A mutant as its file has it, with what was measured of it, and where it stands in its crate."""
import os
from copy import copy as duplicate

from mutants.edits import changed_text


class Mutant:
    """A wrong step that the prover has to refuse. `within` is the function that it stands in, `twin` what the name of that one's twin ends
    with, if it can have one, `proof` the folder of the proof that has to fail, `lemmas` those of what it breaks that this rests on, `wrong`
    why it can't be tried."""

    def __init__(self, path, measured):
        self.path, self.name, self.measured = path, os.path.basename(path).removesuffix(".edit"), measured
        self.function = self.clause = self.proof = self.twin = self.wrong = ""
        self.breaks, self.goals, self.met = (measured.words(self.name, key) for key in ("breaks", "goals", "met"))
        self.pairs, self.lemmas, self.within = [], set(), None
        self.read()
        if not self.function or not self.pairs:
            self.wrong = self.wrong or "it has no line `function:`, or no pair `old:` and `new:`"
        elif self.breaks and self.unit() not in self.breaks:
            self.wrong = f"what it is for, {self.unit()}, is not among what it breaks"

    def read(self):
        """Reads its file."""
        file = old = ""
        with open(self.path, encoding="utf-8") as lines:
            for line in lines:
                key, _, text = line.rstrip("\n").partition(":")
                text = text.removeprefix(" ")
                if key in ("function", "clause"):
                    setattr(self, key, text)
                elif key == "file":
                    file = text
                elif key == "old":
                    old = text
                elif key == "new":
                    self.pairs.append((file, old, text))
                else:
                    self.wrong = f"this line is not read: {line.strip()}"

    def unit(self):
        """What has to be refused: its theorem or function, or a clause of that."""
        return f"{self.function}:{self.clause}" if self.clause else self.function

    def control(self):
        """Its control: what makes a twin of its function with nothing wrong in it."""
        control = duplicate(self)
        control.pairs, control.goals, control.twin = [], [], "_mutantless"
        return control

    def is_definition(self):
        """Whether it stands in a definition, and not in a body."""
        return any(file.startswith("specs/") for file, _, _ in self.pairs)

    def signs(self, copy, is_shell=False):
        """What of all that it breaks tells that it is killed in a copy: what it is for, if no other mutant of the copy breaks that, or else
        the lines of lemmas below that theorem that none does, if it was measured of each which ones it breaks. In a shell these alone tell:
        that it proves the theorem with nothing wrong isn't tried."""
        others = [it for it in copy if it is not self]
        broken = {unit for it in others for unit in it.breaks}
        if self.unit() not in broken and not is_shell:
            return {self.unit()}
        return self.lemmas - broken if all(map(Mutant.has_lemmas, others)) else set()

    def has_lemmas(self):
        """Whether it was measured which lemmas it breaks."""
        return any(unit[0] == "@" for unit in self.breaks)

    def locate(self, functions, number):
        """Finds the function and its proof, and for a mutant of a body that it stands in the function that it names."""
        self.proof = self.function.replace("::", "/")
        if not functions.called(self.function):
            self.wrong = f"no function of its crate is called `{self.function}`"
            return
        for file, old, _ in self.pairs:
            text = functions.texts.get(file.removeprefix("src/"), "")
            if file.startswith("specs/") or old not in text:
                continue
            at = text.index(old) + len(old) - 1
            within = functions.before(file.removeprefix("src/"), at)
            if not within or not within.is_called(self.function):
                self.wrong = f"it stands in `{within.word if within else file}`, which `function:` doesn't name"
            elif not within.begin <= at < within.end:
                self.wrong = "it stands in a clause or behind the body, and not in it"
            else:
                self.stand_in(within, number)

    def stand_in(self, function, number):
        """Notes the function that it stands in, and what its twin is called if it can have one."""
        self.within = function
        if function.cycle:
            self.proof = "/".join([*self.function.split("::")[:-1], "+" + function.cycle])
        if function.name == self.function and function.can_be_emptied() and changed_text(self.pairs, function.body):
            self.twin = f"_mutant{number}"

    def is_in_cycle(self):
        """Whether its function is in a cycle."""
        return bool(self.within.cycle)

    def proof_of(self, twin):
        """The folder of the proof of a twin, or of its own proof if it has none."""
        return self.function.replace("::", "/") + twin if twin else self.proof
