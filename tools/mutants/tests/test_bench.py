"""Tests of bench.py."""
import os
import sys

from mutants.bench import Bench, crates_below, link_or_copy
from mutants.tests.small_crate import SmallCrate, read


class Benches(SmallCrate):
    def setUp(self):
        super().setUp()
        self.put(f"{self.top}/crates.txt", "# crates\nlow:\nmiddle: low std_like\nsmall: middle  # on top\n")

    def bench(self, libraries=""):
        return Bench(libraries, 2, False, top=self.top, kit=self.kit)

    def test_what_crates_stand_on(self):
        self.assertEqual(crates_below(self.top), {"low": [], "middle": ["low", "std_like"], "small": ["middle"]})
        self.assertEqual(self.bench().all_below("small"), {"low", "middle"})
        self.assertEqual(self.bench().with_mutants(), ["small"])

    def test_libraries(self):
        self.assertEqual(self.bench().lacks("small"), "the library middle is not there")
        self.put(f"{self.top}/crates/middle/out/rlib/middle.rlib/format", "")
        self.put(f"{self.kit}/rlibs/low.rlib/format", "")
        self.assertEqual(self.bench().lacks("small"), "")
        self.assertEqual(self.bench().stands_on("small"), [f"{self.kit}/rlibs/low.rlib", f"{self.top}/crates/middle/out/rlib/middle.rlib"])
        self.assertIn(f"middle={self.top}/crates/middle/out/rlib/middle.rlib", self.bench().command("small"))

    def test_a_library_is_taken_where_one_is_made(self):
        self.put(f"{self.top}/crates/middle/out/rlib/middle.rlib/format", "sum")
        bench = self.bench(f"{self.top}/libraries")
        bench.take_library("middle")
        bench.take_library("low")
        self.assertEqual(read(f"{self.top}/libraries/middle.rlib/format"), "sum")
        self.assertEqual(os.listdir(f"{self.top}/libraries"), ["middle.rlib"])

    def test_a_run(self):
        said, cpu = self.bench().run([sys.executable, "-SE", "-c", "print('it says')"], self.top)
        self.assertEqual(said, "it says\n")
        self.assertGreater(cpu, 0)

    def test_proved_files_are_linked(self):
        for name in ("a.oantt", "b.txt"):
            self.put(f"{self.top}/{name}", "text")
            link_or_copy(f"{self.top}/{name}", f"{self.top}/copy.{name}")
            self.assertEqual(read(f"{self.top}/copy.{name}"), "text")
        self.assertEqual((os.stat(f"{self.top}/a.oantt").st_nlink, os.stat(f"{self.top}/b.txt").st_nlink), (2, 1))
