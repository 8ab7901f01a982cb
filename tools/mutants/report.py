"""Prints verdicts."""
from mutants.check_output import KILLED, NO_LONGER

# So much of a reason is printed.
LONGEST = 200


def report(crates):
    """Prints the verdicts on the mutants of these crates, and answers the status: 0 if there are some and each is killed. What survived is
    listed once more right above the last line, since of long output often only the end is kept."""
    killed = answers = 0
    survived = []
    for crate in crates:
        for mutant in crate.mutants:
            verdict, why = crate.verdict(mutant)
            is_killed = verdict == KILLED
            killed += is_killed
            answers += is_killed and why.startswith(NO_LONGER)
            survived += [] if is_killed else [f"survived: {crate.name}/{mutant.name}: {why[:LONGEST]}"]
            print(f"mutants: {crate.name}/{mutant.name}: {'killed' if is_killed else 'survived'}: {why[:LONGEST]}")
        for why in crate.notes:
            print(f"mutants: {crate.name}: {why[:LONGEST]}")
    spent = ", ".join(f"{it.name} {it.cpu / 60:.1f} ({len(it.mutants)} in {it.checks} checks)" for it in crates)
    print(f"mutants: CPU minutes: {spent}; {sum(it.cpu for it in crates) / 60:.1f} in all")
    print(f"mutants: {answers} are killed since an answer no longer fits")
    for line in survived:
        print(line)
    early, count = sum(it.early for it in crates), killed + len(survived)
    print(f"{killed} mutants killed, {len(survived)} not; {count - early} were tried now, {early} earlier on this machine")
    return 0 if killed and not survived else 1


def report_wrong(crates):
    """Prints which mutants of these crates can't be tried as they stand, and answers the status."""
    wrong = [f"{crate.name}/{mutant.name}: {mutant.wrong}" for crate in crates for mutant in crate.mutants if mutant.wrong]
    wrong += [f"{crate.name}: {why}" for crate in crates for why in crate.measured.wrong]
    for why in wrong:
        print(f"mutants: {why}")
    return 1 if wrong else 0
