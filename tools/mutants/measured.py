"""What was measured of a crate's mutants. It stands in crates/CRATE/mutants/measured.txt, a line for each mutant, sorted by their names:

    NAME goals: GOAL GOAL; met: GOAL GOAL
    NAME breaks: THEOREM THEOREM:CLAUSE @FILE.LEMMA+LINE

`goals` and `met` are those of a mutant in a body, `breaks` is that of one in a definition. The command writes it (`--measure`); nobody
writes it by hand. README.md says what the words mean.
"""
import glob
import os

KEYS = ("breaks", "goals", "met")
FILE = "measured.txt"


def line_of(name, words):
    """The line of a mutant, given the words of each key; nothing if none was measured."""
    parts = [f"{key}: {' '.join(words[key])}" for key in KEYS if words.get(key)]
    return f"{name} {'; '.join(parts)}" if parts else ""


def words_of(line):
    """The name and the words of each key that a line has, or nothing if it can't be read."""
    name, _, rest = line.partition(" ")
    words = {}
    for part in rest.split("; "):
        key, _, text = part.partition(": ")
        if key in KEYS and key not in words:
            words[key] = text.split()
    return (name, words) if name and line == line_of(name, words) else None


class Measured:
    """What was measured of the mutants in a folder: `wrong` says which lines of it can't be meant."""

    def __init__(self, folder):
        self.folder, self.path, self.all, self.wrong = folder, f"{folder}/{FILE}", {}, []
        if not os.path.isfile(self.path):
            return
        names = self.mutants()
        with open(self.path, encoding="utf-8") as file:
            for line in file.read().splitlines():
                name, words = words_of(line) or ("", {})
                if name in names and name not in self.all:
                    self.all[name] = words
                else:
                    self.wrong.append(f"this line of {FILE} {'has no mutant' if name else 'is not read'}, or a second one: {line[:100]}")

    def mutants(self):
        """The names of the mutants in the folder."""
        return {it.removesuffix(".edit") for it in glob.glob("*.edit", root_dir=self.folder)}

    def words(self, name, key):
        """What was measured of a mutant under a key."""
        return [*self.all.get(name, {}).get(key, [])]

    def line(self, name):
        """The line of a mutant, or nothing."""
        return line_of(name, self.all.get(name, {}))

    def put(self, name, **words):
        """Writes what was measured of a mutant. Lines go that have no mutant."""
        self.all[name] = {**self.all.get(name, {}), **words}
        names = self.mutants()
        lines = [it for it in (self.line(name) for name in sorted(self.all) if name in names) if it]
        with open(f"{self.path}.new", "w", encoding="utf-8") as file:
            file.writelines(f"{it}\n" for it in lines)
        os.replace(f"{self.path}.new", self.path)
