"""Tries mutants in bodies: in shells of their crate, where that is cheaper, and what isn't killed there in whole copies."""
from mutants.check_output import KILLED, SURVIVED, failure, refused_goals, verdict_of
from mutants.edits import changed_files


class Bodies:
    """Tries mutants in bodies of a crate. Of what shells say that tells of no verdict, it makes notes."""

    def __init__(self, crate):
        self.crate, self.is_in_shell = crate, False

    def try_all(self, mutants):
        """Tries these in shells, where that is cheaper, and what isn't killed there in whole copies."""
        if self.crate.bench.has_shells and self.is_for_shell(mutants):
            self.try_in_shell(mutants)
        with self.crate.shared_work():
            self.try_rounds(mutants)

    def is_for_shell(self, mutants):
        """Whether these cost less in a shell: there their functions are proved alone, and in whole copies all that they call is. Where it
        isn't known at which goals they are refused, the functions are proved once more with nothing wrong, and what has no twin takes a
        further copy."""
        functions = self.crate.functions
        standing = functions.of(mutants)
        cheaper = len(functions.reachable(standing)) >= 2 * len(standing) and 2 * sum(bool(it.twin) for it in mutants) > len(mutants)
        return cheaper or bool(mutants) and all(it.goals for it in mutants)

    def try_in_shell(self, mutants):
        """Tries mutants in shells: those of which it is known at which goals they are refused, and then with a control what isn't known,
        and what isn't refused there and nowhere else."""
        self.try_known([it for it in mutants if it.goals])
        if left := self.crate.waiting(mutants):
            self.try_with_control(left)

    def try_known(self, mutants):
        """Tries mutants in twins of their functions, and the others in their places in the same shell, or in further ones. One is killed if
        what is refused of its function is the first goal that it is known to be refused at. Of the others nothing is told."""
        crate = self.crate
        twins, others = [it for it in mutants if it.twin], [it for it in mutants if not it.twin]
        while now := [*twins, *(standing := self.together(others))]:
            said = crate.check(standing, [it.function + it.twin for it in now], standing, twins, is_known=True)
            if unread := failure(said):
                crate.notes.append(f"its shell can't be read: {unread}")
                return
            for mutant in now:
                crate.read(mutant, said, mutant.twin)
                if crate.verdicts[mutant][0] != KILLED or crate.goals[mutant] != mutant.goals[:1]:
                    crate.notes.append(f"{mutant.name} isn't refused at its first goal alone: {crate.verdicts.pop(mutant)[1]}")
            twins, others = [], [it for it in others if it not in standing]

    def try_with_control(self, mutants):
        """Tries mutants in twins of their functions, and the others in their places in a further shell. What isn't killed there is told
        nothing, nor is a mutant of what isn't proved in the first shell with nothing wrong. Answers the goals of functions in cycles that
        are refused there with nothing wrong."""
        crate = self.crate
        twins, others = [it for it in mutants if it.twin], [it for it in mutants if not it.twin]
        controls = [*{it.function: it.control() for it in twins}.values(), *others]
        asked = [*controls, *twins]
        said = crate.check([], [it.function + it.twin for it in asked], others, [it for it in asked if it.twin])
        if unread := failure(said):
            crate.notes.append(f"its shell can't be read: {unread}")
            return {}
        whats = {it.function: (crate.name, it.function + it.twin, it.proof_of(it.twin), said) for it in controls}
        verdicts = {function: verdict_of(*what) for function, what in whats.items()}
        unproved = {function: why for function, (verdict, why) in verdicts.items() if verdict != SURVIVED}
        crate.notes += [f"{function} is not proved in a shell with nothing wrong in it: {why}" for function, why in unproved.items()]
        self.is_in_shell = True
        self.try_rounds([it for it in others if it.function not in unproved])
        self.is_in_shell = False
        for mutant in twins:
            if mutant.function not in unproved:
                crate.read(mutant, said, mutant.twin)
        crate.verdicts = {it: verdict for it, verdict in crate.verdicts.items() if verdict[0] == KILLED}
        in_cycles = {it.function for it in twins if it.is_in_cycle() and verdicts[it.function][0] == KILLED}
        return {function: refused_goals(*whats[function]) for function in in_cycles}

    def try_rounds(self, mutants):
        """Tries these in as few copies as can be, and then those that wait for a callee's proof again, as long as one is told."""
        before = []
        while (todo := self.crate.waiting(mutants)) and todo != before:
            before = todo
            while todo:
                now = self.together(todo)
                self.try_copy(now)
                todo = [it for it in todo if it not in now]

    def together(self, mutants):
        """The first of these mutants that can stand in one copy: each is still found there, and no two are of one proof."""
        chosen = []
        for mutant in mutants:
            if mutant.proof not in [it.proof for it in chosen] and not changed_files([*chosen, mutant], self.crate.folder)[1]:
                chosen.append(mutant)
        return chosen

    def try_copy(self, mutants):
        """Checks the functions of some mutants in one copy. Where it can't be read, finds whose fault it is."""
        functions = list(dict.fromkeys(it.function for it in mutants))
        said = self.crate.check(mutants, functions, mutants if self.is_in_shell else ())
        if why := failure(said):
            self.find_fault(mutants, why)
        else:
            for mutant in mutants:
                self.crate.read(mutant, said)

    def find_fault(self, mutants, why):
        """Finds which of the mutants of a copy that can't be read is wrong, and tries the others."""
        for mutant in mutants:
            if mutants == [mutant] or f"no function `{mutant.function}`" in why:
                mutant.wrong = why
        if not any(it.wrong for it in mutants):
            for mutant in mutants:
                mutant.wrong = failure(self.crate.check([mutant], [""], [mutant] if self.is_in_shell else ()))
        left = [it for it in mutants if not it.wrong]
        for now in [left] if left and len(left) < len(mutants) else [[it] for it in left]:
            self.try_copy(now)
