"""Tests of command.py."""
import contextlib
import io
import sys
from functools import partial
from unittest import mock

from mutants import command
from mutants.crate import Crate
from mutants.gate import BesideGate
from mutants.tests.small_crate import CannedBench, SmallCrate, read

REFUSED = "not proved: `search` did not prove `returns`; what else"


def says(only, room):
    return "".join(f"fn small::{it}: {'proved' if it.endswith('less') else REFUSED}\n" for it in only)


class Command(SmallCrate):
    def bench(self, says):
        """What makes a bench whose checks say so."""
        return lambda libraries, jobs, *how: CannedBench(says, is_anew=how[0], has_shells=how[1], top=self.top, kit=self.kit)

    def run_with(self, *words, says=says):
        """The status and the lines of the command, over a bench without a prover."""
        crate = lambda name, bench=None: Crate(name, bench, self.top)
        with contextlib.ExitStack() as stack:
            gate = partial(BesideGate, left=lambda: 1)
            parts = {"Bench": self.bench(says), "TOP": self.top, "Crate": crate, "BesideGate": gate, "give_way": lambda: None}
            stack.enter_context(mock.patch.multiple(command, **parts))
            stack.enter_context(mock.patch.object(sys, "argv", ["mutants", *words]))
            said = stack.enter_context(contextlib.redirect_stdout(io.StringIO()))
            return command.main(), said.getvalue().splitlines()

    def setUp(self):
        super().setUp()
        self.mutant("a", "second", "one() + 1", "one() + 2")

    def test_all_crates_are_tried(self):
        for words in ([], ["small"], ["--no-shells"], ["--anew", "--jobs", "1"]):
            status, lines = self.run_with(*words)
            self.assertEqual((status, lines[0]), (0, "mutants: small/a: killed: `search` did not prove `returns`"))

    def test_apply_tries_none(self):
        self.assertEqual(self.run_with("--apply"), (0, []))
        self.mutant("b", "one", "one() + 1", "one() + 2")
        self.assertEqual(self.run_with("--apply")[0], 1)

    def test_measure(self):
        self.assertEqual(self.run_with("--measure"), (0, []))
        self.assertEqual(read(f"{self.folder}/mutants/measured.txt"), "a goals: returns\n")

    def test_what_is_not_tried_behind_a_gate_that_fails(self):
        self.put(f"{self.top}/crates.txt", "small:\nnever: lost\nlost:\n")
        self.put(f"{self.top}/gate", "")
        status, lines = self.run_with("--behind", f"{self.top}/gate", "small", "never", says=self.gate_fails)
        self.assertEqual((status, lines[-2:]), (1, ["1 mutants killed, 0 not; 1 were tried now, 0 earlier on this machine",
                                                    "mutants: not tried, since the gate has failed: never"]))

    def gate_fails(self, only, room):
        self.put(f"{self.top}/gate", "the gate has ended with status 1\n")
        return says(only, room)

    def test_behind_a_gate(self):
        self.put(f"{self.top}/gate", "the gate has ended with status 0\n")
        status, lines = self.run_with("--behind", f"{self.top}/gate", "--beside", "2")
        self.assertEqual((status, lines[-1]), (0, "1 mutants killed, 0 not; 1 were tried now, 0 earlier on this machine"))
        self.put(f"{self.top}/gate", "the gate has ended with status 1\n")
        status, lines = self.run_with("--behind", f"{self.top}/gate")
        self.assertEqual((status, lines[-1]), (1, "mutants: not tried, since the gate has failed: small"))
