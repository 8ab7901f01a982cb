"""A crate with its mutants: checks of its copies, and the verdicts that these give."""
import contextlib
import glob
import os
import re
import shutil
import tempfile
from functools import cache

from mutants.bench import TOP
from mutants.check_output import KILLED, UNREAD, WAITS, lacks_goal, refused_goals, verdict_of
from mutants.edits import changed_files, text_of
from mutants.functions import Function, Functions
from mutants.measured import Measured
from mutants.mutant import Mutant
from mutants.shell import Shell

PARTS = ("src", "specs", "proofs")


def lemmas_of_attribute(folder, theorem):
    """The files of lemmas that `#[tactic(auto, using(crate::proofs::FILE::LEMMA))]` names above a theorem."""
    *modules, name = theorem.split("::")
    source = f"{folder}/src/{'/'.join(modules) or 'lib'}.rt"
    text = text_of(source) if os.path.isfile(source) else ""
    head = re.search(rf"^ *#\[tactic\(([^\n]*)\)\]\n(?: *#\[[^\n]*\n)* *(?:pub )?fn {name}\(", text, re.M)
    named = re.findall(r"crate::proofs::((?:\w+::)*)\w+", head[1]) if head else []
    return {it[:-2].replace("::", ".") for it in named if it}


@cache
def lemmas_below(folder, crate, theorem):
    """The files of lemmas that the proof of a theorem names, and those that these name, as units have them."""
    reached, new = lemmas_of_attribute(folder, theorem), [*glob.glob(f"{folder}/proofs/{theorem.replace('::', '/')}/*.antt")]
    new += [path for it in reached if os.path.isfile(path := f"{folder}/proofs/{it.replace('.', '/')}.antt")]
    for path in new:
        named = set(re.findall(rf"\bRattle\.{crate}\.proofs\.((?:\w+\.)*[A-Z]\w*)", text_of(path))) - reached
        files = {it: f"{folder}/proofs/{it.replace('.', '/')}.antt" for it in named}
        reached |= named
        new += [it for it in files.values() if os.path.isfile(it)]
    return reached


class Crate:
    """The mutants of a crate, and the verdicts on them that its checked copies give. Without a bench nothing is tried."""

    def __init__(self, name, bench=None, top=TOP):
        self.name, self.bench, self.folder = name, bench, f"{bench.top if bench else top}/crates/{name}"
        self.cpu, self.checks, self.incremental, self.verdicts, self.goals, self.notes = 0.0, 0, "", {}, {}, []
        self.functions, self.measured = Functions(self.folder), Measured(f"{self.folder}/mutants")
        self.has_code = any(map(Function.can_be_emptied, self.functions.all))
        self.mutants = [Mutant(it, self.measured) for it in sorted(glob.glob(f"{self.folder}/mutants/*.edit"))]
        self.find_mutants()
        self.share_met()
        self.sum = self.sum_now() if bench and self.waiting(self.mutants) else ""
        self.take_kept()

    def find_mutants(self):
        """Finds where the mutants stand, and which lemmas below their theorems they break; or why they can't be tried."""
        for number, mutant in enumerate(self.mutants):
            mutant.wrong = (self.bench and self.bench.lacks(self.name)) or mutant.wrong or changed_files([mutant], self.folder)[1]
            if not mutant.wrong:
                mutant.locate(self.functions, number)
            if mutant.has_lemmas():
                below = lemmas_below(self.folder, self.name, mutant.function)
                mutant.lemmas = {it for it in mutant.breaks if it[1:].rpartition("+")[0].rpartition(".")[0] in below}

    def share_met(self):
        """What is taken as met for one mutant of a function is taken so for all."""
        met = {it.function: [] for it in self.mutants}
        for mutant in self.mutants:
            met[mutant.function] += [it for it in mutant.met if it not in met[mutant.function]]
            mutant.met = met[mutant.function]

    def take_kept(self):
        """Takes the verdicts that are kept from earlier runs."""
        kept = {it: self.bench.verdicts.reason(self.sum, it) for it in self.mutants if self.sum and not it.wrong}
        self.verdicts = {it: (KILLED, why) for it, why in kept.items() if why}
        self.early = len(self.verdicts)

    def sum_now(self):
        """The sum of what the verdicts stand on, as it is now."""
        return self.bench.verdicts.crate_sum(self.folder, self.bench.stands_on(self.name))

    @contextlib.contextmanager
    def shared_work(self):
        """Lets checks take meanwhile what those of other copies proved of the same text. Answers the folder in which that is kept."""
        with tempfile.TemporaryDirectory(prefix="mutants-kept-") as self.incremental:
            yield self.incremental
        self.incremental = ""

    def check(self, standing, only, staying=(), twins=(), is_known=False, is_shell=False):
        """What a check of these functions, or of all, says in a copy with these mutants. It is a shell where that is said, and where there
        are twins, or mutants whose functions stay."""
        with tempfile.TemporaryDirectory(prefix="mutants-") as room:
            for part in PARTS:
                if os.path.isdir(f"{self.folder}/{part}"):
                    shutil.copytree(f"{self.folder}/{part}", f"{room}/{part}")
            words = [word for function in only for word in ("--only", function)]
            if is_shell or staying or twins:
                Shell(self.name, room, self.functions, staying, twins, is_known)
                words += ["--allow-holes"]
            for file, text in changed_files(standing, room)[0].items():
                with open(f"{room}/{file}", "w", encoding="utf-8") as it:
                    it.write(text)
            words += ["--incremental", self.incremental] if self.incremental else []
            said, cpu = self.bench.run([*self.bench.command(self.name), *words], room)
        self.cpu += cpu
        self.checks += 1
        return said

    def read(self, mutant, said, twin=""):
        """Takes what a check says of a mutant, or of its twin: whether it is killed, and at which goals."""
        it = (self.name, mutant.function + twin, mutant.proof_of(twin), said)
        self.verdicts[mutant], self.goals[mutant] = verdict_of(*it), refused_goals(*it)
        if twin and lacks_goal(*it, mutant.met):
            self.verdicts[mutant] = (UNREAD, "what is taken as met is no goal of it")

    def verdict(self, mutant):
        """What is known of the mutant: that it waits, if it has to be tried (again)."""
        return (UNREAD, mutant.wrong) if mutant.wrong else self.verdicts.get(mutant, (WAITS, "nothing was tried for it"))

    def waiting(self, mutants):
        """Those of the mutants that have to be tried (again)."""
        return [it for it in mutants if self.verdict(it)[0] == WAITS]
