"""Tests of gate.py: which crates are tried beside a gate, and when."""
import contextlib
import os
import tempfile
import unittest

from mutants.gate import BesideGate, look

BELOW = {"top": {"low", "middle"}, "never": {"lost"}, "middle": {"low"}, "low": set()}


class Gate(unittest.TestCase):
    def setUp(self):
        room = tempfile.TemporaryDirectory()
        self.addCleanup(room.cleanup)
        self.path, self.events = f"{room.name}/gate", []
        self.says = {"low": "fn low: proved\n", "middle": "rt: middle proved\n", "top": "the gate has ended with status 0\n", "never": ""}

    def gate_says(self, text):
        with open(self.path, "a", encoding="utf-8") as file:
            file.write(text)

    def attempt(self, name):
        """Tries a crate: meanwhile the gate says what it says then."""
        self.events.append(name)
        self.gate_says(self.says[name])
        return name.upper()

    def tried(self, names, left=1):
        take = lambda it: self.events.append(f"take {it}")
        return BesideGate(self.path, take, BELOW.__getitem__, self.attempt, 1, 1, lambda: left).try_all(names, pause=0.01)

    def test_each_when_all_below_it_is_proved(self):
        self.gate_says("rt: low is kept: as before\nrt: lost NOT PROVED\nrt: lost: its tests are proved\n")
        self.assertEqual(self.tried([*BELOW]), (["TOP", "NEVER", "MIDDLE", "LOW"], []))
        self.assertEqual(self.events, ["take low", "middle", "take middle", "top", "never", "low"])

    def test_what_is_left_where_the_gate_fails(self):
        self.gate_says("")
        self.says["low"] = "the gate has ended with status 1\n"
        self.assertEqual(self.tried(["low", "never"]), (["LOW"], ["never"]))

    def test_nothing_beside_a_gate_that_takes_all_processors(self):
        self.gate_says("")
        gate = BesideGate(self.path, None, BELOW.__getitem__, None, 2, 1, lambda: 0)
        self.assertEqual((gate.room(False), gate.room(True)), (0, 2))

    def test_what_a_gate_says(self):
        self.gate_says("rt: a proved\nrt: b is kept: as before\nrt: c NOT PROVED\nthe gate has ended with status 3\n")
        self.assertEqual(look(self.path), (["a", "b"], 3))
        with contextlib.suppress(OSError):
            os.remove(self.path)
