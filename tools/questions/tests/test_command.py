"""Tests of command.py, with a program that prints a log that is given."""
import contextlib
import io
import os
import sys
import tempfile
import unittest
from unittest import mock

sys.path.insert(0, os.path.join(os.path.dirname(os.path.abspath(__file__)), "..", "..", "..", "tests", "golden"))
from questions import command  # noqa: E402

GOLDEN = """mode: body
--- document
{"nodes": [{"k": "Fn", "body": 1}, {"k": "Literal", "lit": "int", "t": "1"}]}
--- output
body r0=(Literal 1)
"""
LOG = ["skip fn 0", "container fn 0", "expansion_limit", "cfg 0 1"]


class Runs(unittest.TestCase):
    def run_on(self, log, sorts=("cfg", "skip")):
        """The status and the output for a folder of one golden test, of which the program prints this log."""
        with tempfile.TemporaryDirectory() as room:
            folder, program = os.path.join(room, "golden"), os.path.join(room, "program")
            os.mkdir(folder)
            with open(os.path.join(folder, "literal.golden"), "w", encoding="utf-8") as file:
                file.write(GOLDEN)
            with open(program, "w", encoding="utf-8") as file:
                file.write("#!/bin/sh\ncat <<'END'\n" + "\n".join(log) + "\nEND\n")
            os.chmod(program, 0o700)
            out = io.StringIO()
            with mock.patch.object(command, "SORTS", sorts), contextlib.redirect_stdout(out):
                return command.main([program, folder]), out.getvalue()

    def test_a_log_that_is_right(self):
        status, out = self.run_on(LOG)
        self.assertEqual(status, 0)
        self.assertIn("questions: 4 required in 1 golden tests, of which 0 failed", out)

    def test_a_log_that_lacks_a_question(self):
        status, out = self.run_on(LOG[:-1])
        self.assertEqual(status, 1)
        self.assertIn("FAILED golden/literal: not in the log: cfg 0 1", out)

    def test_a_log_with_more(self):
        status, out = self.run_on([*LOG, "hygiene 0 1"])
        self.assertEqual(status, 1)
        self.assertIn("FAILED golden/literal: needless: hygiene 0 1", out)

    def test_a_sort_that_nothing_requires(self):
        status, out = self.run_on(LOG, sorts=("cfg", "alias"))
        self.assertEqual(status, 1)
        self.assertIn("none of alias", out)

    def test_wrong_words(self):
        with contextlib.redirect_stderr(io.StringIO()):
            self.assertEqual(command.main([]), 2)
            self.assertEqual(command.main(["/nowhere"]), 2)


if __name__ == "__main__":
    unittest.main()
