"""Texts of proof files in a shell: of twins, of functions that are taken as met, and of goals that are."""
import re

# The module that has the hole of all that is taken as met.
HOLE_MODULE = "TakenAsMet"
HOLE = "pub taken_as_met {ℓ} : {A : Type ℓ} → A\ntaken_as_met = ?\n"


def dotted(proof):
    """A path of folders as modules name it."""
    return proof.replace("/", ".")


def met_proof(crate, path):
    """The proof of a function that is taken as met."""
    library = f"Rattle.{crate}.proofs"
    uses = f"use {library}.{'.'.join(path)}.Statement.{{statement}}\nuse {library}.{HOLE_MODULE}.{{taken_as_met}}\n"
    return f"{uses}\npub {path[-1]}_spec : {{M : Type 1}} → statement M\n{path[-1]}_spec = taken_as_met\n"


def with_goals_met(answers, crate, proof, goals):
    """The answers of a proof with these goals answered by a hole."""
    taken = ""
    for name in goals:
        answers = re.sub(rf"^pub {re.escape(name)} :.*\n(?:.+\n)+", "", answers, flags=re.M)
        taken += f"\npub {name} : goal.{name}\n{name} = taken_as_met\n"
    library = f"Rattle.{crate}.proofs"
    uses = f"use {library}.{HOLE_MODULE}.{{taken_as_met}}\n"
    if "Goals as goal" not in answers:
        uses += f"use {library}.{dotted(proof)}.Goals as goal\n"
    return uses + answers + taken


def of_twin(answers, crate, function, proof, twin):
    """A proof file of a function as its twin has it: it names what is generated for the twin."""
    name = function.replace("::", ".")
    names = f"{re.escape(name)}|{re.escape(dotted(proof))}"
    here = re.compile(rf"\b(Rattle\.{crate}\.(?:proofs|specs\.contracts))\.(?:{names})(?=\.)")
    return here.sub(rf"\1.{name}{twin}", answers)


def of_member(text, word, begin):
    """What of a proof file of a cycle is about the member whose goals begin so, as a function that is in none has it: neither its own
    measure, nor answers that cite it."""
    first, *declared = re.split(r"^(?=(?:abbrev )?pub )", text, flags=re.M)
    kept, names = [], {}
    for it in declared:
        name = re.split(r"pub | :", it)[1]
        found = re.fullmatch(rf"(invariant-|decreases-|){begin}(.*)", name) if name != f"decreases-{word}" else None
        answer = re.search(rf"^{re.escape(name)} ((?:g )?)t c(?= =)", it, re.M)
        if found and (found[1] or answer and not re.search(r"\bt\b|\bc\.decreases\b", it[answer.end() :])):
            names[name] = found[1] + found[2]
            kept.append(f"{it[: answer.start()]}{name} {answer[1]}c{it[answer.end() :]}" if answer else it)
    return re.sub(r"[\w-]+", lambda found: names.get(found[0], found[0]), first + "".join(kept))
