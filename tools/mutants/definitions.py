"""Tries mutants in definitions: each can break any theorem, so a copy has those that are told from each other by what they break."""
import re

from mutants.check_output import KILLED, SURVIVED, UNREAD, broken_lemmas, broken_units, failure
from mutants.edits import changed_files
from mutants.mutant import Mutant


def broken_theorems(copy):
    """The theorems that these mutants are known to break."""
    return {re.sub(r"(?<!:):\w+$", "", unit) for mutant in copy for unit in mutant.breaks}


class Definitions:
    """Tries mutants in definitions of a crate."""

    def __init__(self, crate):
        self.crate = crate

    def try_all(self, mutants):
        """Tries these in copies by what they are known to break, those of which one doesn't tell in further ones, and each alone of which
        none tells. Of a copy those theorems aren't asked for that it is known to break, and that none of its mutants is for: what is
        refused costs most."""
        known = [it for it in mutants if it.breaks]
        theorems = {it.function for it in known}
        with self.crate.shared_work():
            while known:
                copies, known = [(broken_theorems(it), it) for it in self.pack(known)], []
                for broken, copy in sorted(copies, key=lambda it: len(it[0])):
                    asked = {it.function for it in copy}
                    if self.try_copy(copy, sorted(theorems - broken | asked if copy[1:] else asked)):
                        known += self.crate.waiting(copy)
            for mutant in self.crate.waiting(mutants):
                self.try_alone(mutant)

    def pack(self, mutants):
        """These mutants in copies: in each there is something that tells of each mutant, and each is still found there."""
        copies = []
        for mutant in mutants:
            wider = ([*it, mutant] for it in copies)
            fits = (it for it in wider if all(other.signs(it) for other in it) and not changed_files(it, self.crate.folder)[1])
            if copy := next(fits, None):
                copies = [copy if it == copy[:-1] else it for it in copies]
            else:
                copies.append([mutant])
        return copies

    def try_copy(self, copy, theorems):
        """Asks for these theorems in a copy, and tells whether it says something: what is refused there counts if its mutants are known to
        break all of it. It says nothing of a lemma that rests on one that another mutant breaks."""
        crate = self.crate
        is_shell = crate.bench.has_shells and crate.has_code and all(it.lemmas for it in copy)
        said = crate.check(copy, theorems, is_shell=is_shell)
        refused = {unit: why for theorem in theorems for unit, why in broken_units(crate.name, theorem, said).items()}
        lemmas = broken_lemmas(crate.folder, said) if all(map(Mutant.has_lemmas, copy)) else {}
        if failure(said) or not refused.keys() | lemmas.keys() <= {unit for mutant in copy for unit in mutant.breaks}:
            return False
        for mutant in copy:
            why = [(refused | lemmas)[it] for it in sorted(mutant.signs(copy, is_shell) & (refused | lemmas).keys())]
            if why and mutant.unit() in refused:
                crate.verdicts[mutant] = (KILLED, why[0])
        return len(copy) > len(crate.waiting(copy))

    def try_alone(self, mutant):
        """Tries a mutant in a copy of its own."""
        said = self.crate.check([mutant], [mutant.function])
        mutant.wrong = failure(said)
        refused = broken_units(self.crate.name, mutant.function, said)
        unread = refused.get(f"{mutant.function}?")
        verdict = (UNREAD, unread) if unread else (SURVIVED, "what it is for is proved")
        self.crate.verdicts[mutant] = (KILLED, refused[mutant.unit()]) if mutant.unit() in refused else verdict
