"""The record of what rust-analyzer printed for texts of our own, in tests/upstream, beside what is stored, without a rust-analyzer."""
import glob
import os
import re

from front import compare, kept, known, program, upstream

FOLDER = os.path.join(program.TOP, "tests", "upstream")
DIFFERENCES = os.path.join(program.TOP, "docs", "DIFFERENCES.md")
ENTRY = re.compile(r"^== (.*) \| (.*)$", re.M)


def read(path):
    """A file's text, empty where it isn't there."""
    if not os.path.exists(path):
        return ""
    with open(path, encoding="utf-8", newline="") as file:
        return file.read()


def write(path, content):
    """Writes a file."""
    with open(path, "w", encoding="utf-8", newline="") as file:
        file.write(content)


class Record:
    """What is kept of one text: what upstream printed for each body and signature, and what the comparison came to."""

    def __init__(self, path):
        self.name = path.removesuffix(".rs")
        with open(path, "rb") as file:
            self.text = file.read()
        self.trees = kept.read(read(self.name + ".tree"))
        parts = ENTRY.split(read(self.name + ".hir"))
        self.version, self.entries = parts[0].strip(), list(zip(parts[1::3], parts[2::3], (part[1:] for part in parts[3::3])))

    def cases(self, live):
        """The cases of the text, by its kept tree or by the parser."""
        keeper = kept.Keeper(None if live else self.trees)
        source = compare.sources([self.text], keeper)[0]
        self.trees = keeper.trees
        return source, list(compare.cases(source, True))

    def keep(self, version, entries):
        """Writes the record anew."""
        write(self.name + ".tree", kept.written(self.trees))
        write(self.name + ".hir", version + "\n" + "".join(f"== {title} | {verdict}\n{answer}" for title, verdict, answer in entries))


def printed(answer):
    """An answer as it is kept: with an end of line, or nothing."""
    return "" if answer is None else answer if answer.endswith("\n") else answer + "\n"


def asked(source, cases):
    """What upstream answers for cases."""
    places = [case for case in cases if case.place is not None]
    with upstream.Server([source.text]) as server:
        answers = server.view_hir([(0, case.place) for case in places])
    by_case = {id(case): answer for case, answer in zip(places, answers)}
    return [by_case.get(id(case)) for case in cases]


def blessed(record, version, comparer):
    """Asks upstream anew, and keeps what it prints with what the comparison comes to."""
    source, cases = record.cases(True)
    entries = [(case.title, comparer.compare(case, answer), printed(answer)) for case, answer in zip(cases, asked(source, cases))]
    record.keep(version, entries)


def compared(record, comparer, tally):
    """Compares what is kept with what is stored now. What isn't there is told as nothing."""
    _, cases = record.cases(False)
    name = os.path.basename(record.name)
    tally.same(name, "bodies and signatures", [title for title, _, _ in record.entries], [case.title for case in cases])
    for case, (title, verdict, answer) in zip(cases, record.entries):
        now = comparer.compare(case, answer or None)
        tally.same(f"{name}.rs, {title}", "beside upstream", verdict, str(now))
        if now.kind == compare.DIFFERENT:
            print(now.difference())


def run(lowering, version, bless, tally):
    """Compares the records, or asks a rust-analyzer for them anew."""
    records = [Record(path) for path in sorted(glob.glob(os.path.join(FOLDER, "*.rs")))]
    comparer = compare.Comparer(lowering)
    for record in records:
        if bless and version is not None:
            blessed(record, version, comparer)
        else:
            compared(record, comparer, tally)
    page = read(DIFFERENCES)
    tally.same("docs/DIFFERENCES.md", "rows of known differences", [], [row for row in known.ROWS.values() if row not in page])
    tally.same("upstream", "classes without a row", [], sorted({known.LOST_LABEL, *known.LISTED, *known.ERASED} - set(known.ROWS)))
    tally.same("upstream", "differences that aren't known", 0, comparer.counts[compare.DIFFERENT])
    versions = ", ".join(sorted({record.version for record in records}))
    return f"beside {versions}: {comparer.summary()[-1]}, {comparer.counts[compare.NOT_COMPARABLE]} not comparable"
