"""The command: scripts/mutants [--libraries DIR | --behind FILE [--beside N]] [--jobs N] [--anew] [--measure] [--no-shells] [CRATE..]

With --apply nothing is tried, in no time: those mutants are told that don't apply, name no function of their crate or stand in another one
than they say, and lines of measured data that have no mutant. With --behind a crate waits until all below it is proved by an `rt ci` that
runs meanwhile, whose words stand in that file (gate.py). The libraries below a crate are those that `rt ci` leaves, or with --libraries
those in DIR.
"""
import argparse
import glob
import os
import tempfile
from concurrent.futures import ThreadPoolExecutor

from mutants.bench import TOP, Bench
from mutants.crate import Crate
from mutants.gate import BesideGate, give_way
from mutants.measure import measure
from mutants.report import report, report_wrong
from mutants.trial import crate_of, try_crate


def words_asked():
    """What the command is asked for."""
    parser = argparse.ArgumentParser(prog="mutants", description="Tries mutants: wrong steps that the prover has to refuse.")
    parser.add_argument("--apply", action="store_true", help="look whether each can be tried, and try none")
    parser.add_argument("--measure", action="store_true", help="write where mutants are refused, and what they break")
    parser.add_argument("--anew", action="store_true", help="try or measure those too of which that is kept")
    parser.add_argument("--no-shells", action="store_true", help="try all in whole copies, to see what shells save")
    parser.add_argument("--jobs", type=int, default=0, help="how many crates are tried side by side")
    parser.add_argument("--libraries", default="", help="where the libraries are, if not where `rt ci` leaves them")
    parser.add_argument("--behind", default="", metavar="FILE", help="where an `rt ci` says what is proved, which a crate waits for")
    parser.add_argument("--beside", type=int, default=1, metavar="N", help="how many crates are tried side by side while that one runs")
    parser.add_argument("crates", nargs="*")
    return parser.parse_args()


def side_by_side(what, things, jobs):
    """Does something with each of these things, so many at once."""
    with ThreadPoolExecutor(jobs) as pool:
        list(pool.map(what, things))


def try_beside(asked):
    """Tries crates beside a gate, each over the libraries that it has proved, and answers the status."""
    give_way()
    with tempfile.TemporaryDirectory(prefix="mutants-libraries-") as room:
        bench = Bench(room, asked.jobs, asked.anew, not asked.no_shells)
        gate = BesideGate(asked.behind, bench.take_library, bench.all_below, lambda it: crate_of(it, bench), bench.jobs, asked.beside)
        crates, left = gate.try_all(asked.crates or bench.with_mutants())
        status = report(crates)
        if left:
            print(f"mutants: not tried, since the gate has failed: {' '.join(left)}")
        return 1 if left else status


def main():
    """Does what the command is asked for, and answers the status."""
    asked = words_asked()
    if asked.apply:
        return report_wrong([Crate(os.path.basename(os.path.dirname(it))) for it in sorted(glob.glob(f"{TOP}/crates/*/mutants"))])
    if asked.behind:
        return try_beside(asked)
    bench = Bench(asked.libraries and os.path.abspath(asked.libraries), asked.jobs, asked.anew or asked.measure, not asked.no_shells)
    crates = [Crate(it, bench) for it in asked.crates or bench.with_mutants()]
    if asked.measure:
        side_by_side(lambda it: measure(it, asked.anew), crates, bench.jobs)
        return 0
    side_by_side(try_crate, sorted(crates, key=lambda it: -len(it.mutants)), bench.jobs)
    return report(crates)
