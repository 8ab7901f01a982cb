"""Measures what a usual run doesn't: at which goals a mutant in a body is refused, and what one in a definition breaks by itself."""
import re
import shutil
import tempfile

from mutants.bench import link_or_copy
from mutants.bodies import Bodies
from mutants.check_output import KILLED, broken_lemmas, broken_units, failure


def measure(crate, is_anew):
    """Writes what was measured of the mutants of a crate: of those of which nothing was, or of all."""
    mutants = [it for it in crate.mutants if not it.wrong and (is_anew or not it.breaks + it.goals)]
    measure_goals(crate, [it for it in mutants if not it.is_definition()])
    measure_breaks(crate, [it for it in mutants if it.is_definition()])


def measure_goals(crate, mutants):
    """Writes at which goals mutants in bodies are refused in a shell, where their controls are proved, and which goals are taken as met
    there, since they aren't proved with nothing wrong."""
    for mutant in mutants:
        mutant.goals, mutant.met = [], []
    bodies = Bodies(crate)
    refused = bodies.try_with_control(mutants) if mutants else {}
    if again := [it for it in mutants if it.function in refused]:
        for mutant in again:
            mutant.met = refused[mutant.function]
        crate.notes.clear()
        bodies.try_with_control(again)
    for mutant in mutants:
        verdict, why = crate.verdict(mutant)
        if verdict == KILLED and crate.goals[mutant]:
            crate.measured.put(mutant.name, goals=crate.goals[mutant], met=mutant.met)
        else:
            print(f"mutants: {crate.name}/{mutant.name}: not measured: {why}")
    for why in crate.notes:
        print(f"mutants: {crate.name}: {why[:200]}")


def measure_breaks(crate, mutants):
    """Writes what each of these mutants in definitions breaks where it stands alone, over what a check of the crate as it stands keeps."""
    with crate.shared_work() as whole:
        if mutants:
            crate.check([], [])
        for mutant in mutants:
            with tempfile.TemporaryDirectory(prefix="mutants-kept-") as room:
                crate.incremental = shutil.copytree(whole, f"{room}/kept", copy_function=link_or_copy)
                note_breaks(crate, mutant, crate.check([mutant], []))


def note_breaks(crate, mutant, said):
    """Writes what a check says that a mutant breaks: theorems, clauses and lemmas, or `@` alone for no lemma."""
    if failure(said):
        print(f"mutants: {crate.name}/{mutant.name}: {failure(said)}")
        return
    theorems = re.findall(rf"^fn {crate.name}::(\S+): ", said, re.M)
    units = sorted(unit for theorem in theorems for unit in broken_units(crate.name, theorem, said))
    crate.measured.put(mutant.name, breaks=[*units, *(sorted(broken_lemmas(crate.folder, said)) or "@")])
