"""Tries all mutants of a crate of which no verdict is kept."""
from mutants.bodies import Bodies
from mutants.check_output import KILLED, UNREAD
from mutants.crate import Crate
from mutants.definitions import Definitions


def try_crate(crate):
    """Tries the mutants of a crate, and keeps which ones are killed."""
    mutants = crate.waiting(crate.mutants)
    Bodies(crate).try_all([it for it in mutants if not it.is_definition()])
    Definitions(crate).try_all([it for it in mutants if it.is_definition()])
    is_same = not mutants or crate.sum == crate.sum_now()
    for mutant in mutants:
        verdict, why = crate.verdict(mutant)
        if not is_same:
            crate.verdicts[mutant] = (UNREAD, "what it was tried over has changed meanwhile")
        elif verdict == KILLED:
            crate.bench.verdicts.keep(crate.sum, mutant, why)


def crate_of(name, bench):
    """The crate of this name, with all its mutants tried."""
    crate = Crate(name, bench)
    try_crate(crate)
    return crate
