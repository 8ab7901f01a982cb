#!/usr/bin/env python3
"""Which goals of a crate's proofs are dear: bench/goals.py DIR [--least N]

DIR is what `rattle check --incremental DIR` wrote for the crate, from nothing. Of each goal without an answer it prints how many steps all
calls of tactics took there, how many of them in vain, and the calls, of which the last one proved it. So an answer that names that call
spares the others. N is how many steps a goal has to take to be printed, a million if it isn't said; a million take half a second to a
second. The first line adds up all goals.
"""
import argparse
import glob
import json
import os
import re

MODULE = re.compile(r"Rattle-\w+?-proofs\.(.*)\.Proof\.decls\.oantt")
GOAL = re.compile(rb'"calls":(\[\[.*?\]\]),"goals".*?"name":"([^"]*)"', re.S)


class Goal:
    """A goal of a function's proof: the calls that were tried, each with its steps."""

    def __init__(self, function, name, calls):
        self.function, self.name = function, name
        self.calls = [(tactic, steps) for tactic, _, steps in calls if tactic != "first_of"]
        self.steps = sum(steps for _, steps in self.calls)
        self.in_vain = self.steps - (self.calls[-1][1] if self.calls else 0)

    def __str__(self):
        calls = ", ".join(f"{tactic} {steps:,}" for tactic, steps in self.calls)
        return f"{self.steps:>12,} {self.in_vain:>12,}  {self.function}: {self.name}: {calls}"


def goals_in(folder):
    """The goals of all functions of which a check wrote down the proof."""
    for path in sorted(glob.glob(f"{glob.escape(folder)}/*/records/*.Proof.decls.oantt")):
        function = MODULE.fullmatch(os.path.basename(path))
        with open(path, "rb") as file:
            for found in GOAL.finditer(file.read()):
                yield Goal(function[1], found[2].decode(), json.loads(found[1]))


def main():
    parser = argparse.ArgumentParser(description="Which goals of a crate's proofs are dear.")
    parser.add_argument("folder")
    parser.add_argument("--least", type=int, default=1_000_000, help="how many steps a goal takes at least that is printed")
    asked = parser.parse_args()
    goals = sorted(goals_in(asked.folder), key=lambda it: -it.steps)
    print(f"{sum(it.steps for it in goals):>12,} {sum(it.in_vain for it in goals):>12,}  {len(goals)} goals: steps, and those in vain")
    for goal in goals:
        if goal.steps >= asked.least:
            print(goal)


if __name__ == "__main__":
    main()
