"""The functions of a crate's sources: where each begins and ends, what a check calls it, and what it may call."""
import glob
import re

from mutants.edits import text_of

HEAD = re.compile(r'^((?:[ \t]*#\[[^\]]*\]\n)*)([ \t]*)(?:pub(?:\(\w+\))? )?(const )?(?:unsafe )?(?:extern "C" )?fn (\w+)', re.M)
IN_CLAUSE = re.compile(r"[ \t]*(requires|ensures|ghost)\b")
CYCLE = re.compile(r"[ \t]*#\[cycle\((\w+)\)\]\n")
BLOCK = re.compile(r"^(?:pub )?(?:unsafe )?(?:impl|trait|mod)\b[^{;]*", re.M)
OWNER = re.compile(r"impl\s+(\w+)\s*(?:where\b.*)?", re.S)
DECLARED = re.compile(r"^(?:pub(?:\(\w+\))? )?(?:struct|enum|type) (\w+)\b", re.M)
WORD = re.compile(r"\b[a-z_]\w*\b")
TYPE = re.compile(r"\b[A-Z]\w+")
USE = re.compile(r"^(?:pub(?:\(\w+\))? )?use [^;]*;\n", re.M)
GHOST = re.compile(r"^[ \t]*ghost use [^;]*;\n|//.*", re.M)


def body_of(text, head):
    """Where the body of the function with this head begins and ends, at the same place if it has none or an empty one. As rt fmt writes
    it, a body is opened at the end of a line that is no clause's, and closed in a line that begins as far in as the head."""
    at, depth = head.start(2), 0
    for line in text[at:].splitlines(keepends=True):
        at += len(line)
        if depth or IN_CLAUSE.match(line):
            depth += line.count("{") - line.count("}")
        elif line.endswith("{\n"):
            end = re.compile(rf"^{head[2]}\}}", re.M).search(text, at)
            return at, end.start() if end else at
        elif line.endswith(("{}\n", ";\n", "}\n")):
            break
    return at, at


def start_of(text, head):
    """Where what is written above a function's head begins: its attributes, of one line or more, and its comment."""
    at = head.start(2)
    while at:
        before = text.rfind("\n", 0, at - 1) + 1
        line = text[before : at - 1].strip()
        if not line or not line.startswith("//") and line.endswith(("{", "}", ";")):
            break
        at = before
    return at


def types_for(block):
    """The types that the head of a block of a trait's methods names behind `for`."""
    _, _, owner = block.partition(" for ")
    return frozenset(TYPE.findall(re.split(r"\bwhere\b|\{", owner)[0]))


def without_generics(text):
    """A text without what stands in angle brackets."""
    while (less := re.sub(r"<[^<>]*>", "", text)) != text:
        text = less
    return text


def module_path(file):
    """The path of the module that this file below src/ has."""
    path = file.removesuffix(".rt").split("/")
    return [] if path in (["lib"], ["main"]) else path


class Function:
    """A function with a body: `name` is what a check calls it, or nothing where that isn't known, `proof` the folder of its proof."""

    def __init__(self, file, text, head, types):
        self.file, self.head = file, head
        self.begin, self.end = body_of(text, head)
        self.start, self.close = start_of(text, head), text.find("\n", self.end) + 1
        self.word, self.body = head[4], text[self.begin : self.end]
        self.block = ["", *(it[0] for it in BLOCK.finditer(text, 0, head.start()))][-1].replace("->", "") if head[2] else ""
        self.name = "::".join(self.path(types))
        cycle = CYCLE.search(head[1])
        self.cycle = cycle[1] if cycle else ""
        self.proof = "/".join([*self.name.split("::")[:-1], "+" + self.cycle] if self.cycle else self.name.split("::"))

    def path(self, types):
        """Its path, if it is in no block or in that of a type that one file of the crate declares."""
        if not self.head[2]:
            return [*module_path(self.file), self.word]
        owner = OWNER.fullmatch(without_generics(self.block).strip())
        files = types.get(owner[1], []) if owner else []
        file = self.file if self.file in files else files[0] if len(files) == 1 else ""
        return [*module_path(file), owner[1], self.word] if file else []

    def is_called(self, name):
        """Whether a check may call it so. In a trait or a block of a trait's methods its module and its word are compared, and in the block
        of a type that several files declare its word alone."""
        modules, path = module_path(self.file), name.split("::")
        if self.name or path[-1] != self.word:
            return self.name == name
        of_a_type = " for " not in self.block and self.block.startswith("impl")
        return of_a_type or path[: len(modules)] == modules and len(path) > len(modules) + 1

    def types(self):
        """The types that its block of a trait's methods is for."""
        return types_for(self.block)

    def can_be_emptied(self):
        """Whether a shell can take it as met: its name is known, and it has a body that is no constant's and no test's."""
        return bool(self.name) and self.has_plain_body()

    def has_plain_body(self):
        """Whether it has a body, and is neither a constant function nor a test."""
        return self.begin < self.end and not self.head[3] and "test" not in self.head[1]


class Functions:
    """The functions of a crate that have bodies, and the texts of its files below src/."""

    def __init__(self, folder):
        files = sorted(glob.glob("**/*.rt", root_dir=f"{folder}/src", recursive=True))
        texts, types = {file: text_of(f"{folder}/src/{file}") for file in files}, {}
        for file, text in texts.items():
            for it in DECLARED.finditer(text):
                types.setdefault(it[1], []).append(file)
        made = (Function(file, text, head, types) for file, text in texts.items() for head in HEAD.finditer(text))
        self.folder, self.texts, self.all, self.by_word = folder, texts, [*made], {}
        for it in self.all:
            self.by_word.setdefault(it.word, []).append(it)

    def before(self, file, place):
        """The last function of a file below src/ that begins before this place, or nothing."""
        return [None, *(it for it in self.all if it.file == file and it.head.start() < place)][-1]

    def called(self, name):
        """The functions that a check may call so."""
        return [it for it in self.by_word.get(name.split("::")[-1], []) if it.is_called(name)]

    def proved_with(self, function):
        """A function, and those that are proved with it."""
        return [it for it in self.all if it is function or it.name and function.name and it.proof == function.proof]

    def is_alone(self, function):
        """Whether no other function is in its cycle. Then the names of goals there don't begin with its own."""
        return sum(it.file == function.file and it.cycle == function.cycle for it in self.all) == 1

    def reachable(self, functions):
        """These functions, and those that they may call, by words alone: of one word each counts."""
        reached, new = set(functions), [*functions]
        while new:
            found = {it for word in WORD.findall(new.pop().body) for it in self.by_word.get(word, [])} - reached
            reached |= found
            new += found
        return reached

    def of(self, mutants):
        """The functions that these mutants stand in, and those that are proved with them."""
        return {it for mutant in mutants for it in self.proved_with(mutant.within)}

    def words_used(self, staying, mutants):
        """The words of what can't be left out where these functions stay: what they, these mutants and other code name."""
        texts = [*(it.body for it in staying), *(new for mutant in mutants for _, _, new in mutant.pairs)]
        for file, text in self.texts.items():
            for it in reversed([it for it in self.all if it.file == file and it.begin < it.end]):
                text = text[: it.start] + text[it.close :]
            texts.append(GHOST.sub("", USE.sub("", text)))
        return {word for text in texts for word in WORD.findall(text)}
