"""The tree that `rust-analyzer parse --json` prints, and ways to find a child in it."""
import json
import os
import subprocess
from sys import intern

TRIVIA = ("WHITESPACE", "COMMENT")
HOW_TO_GET = "get it by `rustup component add rust-analyzer`, or name one as $RUST_ANALYZER"


class Node:
    """A node or a token: its kind, its first byte and the one behind it, children (of a node) or a text (of a token)."""

    __slots__ = ("kind", "start", "end", "children", "text")

    def __init__(self, kind, start, end, children, text):
        self.kind, self.start, self.end, self.children, self.text = kind, start, end, children, text


class ParserError(Exception):
    """There is no parser, or it failed; the text is one line."""


class TextError(ParserError):
    """A text that is no text of Rust; the parser isn't asked."""


def from_json(made):
    """The node of one object of the parser, or None for white space and comments.

    It is called for each object as soon as that is read, so that dictionaries don't pile up. What stands in a call of a macro is left out.
    """
    kind = made["kind"]
    if kind in TRIVIA:
        return None
    start, end = made["start"][0], made["end"][0]
    if made["type"] == "Token":
        return Node(intern(kind), start, end, None, characters(made["text"]))
    if kind == "TOKEN_TREE":
        return Node("TOKEN_TREE", start, end, (), None)
    return Node(intern(kind), start, end, tuple([child for child in made["children"] if child is not None]), None)


def characters(text):
    """A text whose characters stand for bytes of UTF-8."""
    return text if text.isascii() else text.encode("latin-1").decode()


def parser_name():
    """The program that parses: $RUST_ANALYZER, else `rust-analyzer` on the path."""
    return os.environ.get("RUST_ANALYZER") or "rust-analyzer"


def parse(text):
    """The tree of a file's bytes; raises ParserError."""
    try:
        text.decode()
    except UnicodeDecodeError as error:
        raise TextError(f"the text isn't UTF-8 at byte {error.start}") from error
    name = parser_name()
    command = f"`{name} parse --json`"
    try:
        run = subprocess.run([name, "parse", "--json"], input=text, capture_output=True, check=False)
    except OSError as error:
        raise ParserError(f"{command} can't be run ({error.strerror}); {HOW_TO_GET}") from error
    if run.returncode != 0:
        said = run.stderr.decode("utf-8", "replace").strip().split("\n")[0]
        raise ParserError(f"{command} ended with status {run.returncode} ({said}); {HOW_TO_GET}")
    # A character for each byte: Python would else take up to four bytes for each character. The bytes aren't kept while the tree is made.
    printed, run.stdout = run.stdout.decode("latin-1"), None
    try:
        return json.loads(printed, object_hook=from_json)
    except (ValueError, KeyError, TypeError) as error:
        raise ParserError(f"{command} printed no tree ({type(error).__name__}); {HOW_TO_GET}") from error


def version():
    """What the parser says of itself, or None where there is none that works."""
    try:
        run = subprocess.run([parser_name(), "--version"], capture_output=True, check=False)
    except OSError:
        return None
    return run.stdout.decode("utf-8", "replace").strip() if run.returncode == 0 else None


def group(words):
    """A set of kinds."""
    return frozenset(words.split())


EXPR = group("""ARRAY_EXPR ASM_EXPR AWAIT_EXPR BIN_EXPR BLOCK_EXPR BREAK_EXPR CALL_EXPR CAST_EXPR CFG_PRED_EXPR CLOSURE_EXPR CONTINUE_EXPR
    FIELD_EXPR FOR_EXPR FORMAT_ARGS_EXPR IF_EXPR INCLUDE_BYTES_EXPR INDEX_EXPR LET_EXPR LITERAL LOOP_EXPR MACRO_EXPR MATCH_EXPR
    METHOD_CALL_EXPR OFFSET_OF_EXPR PAREN_EXPR PATH_EXPR PREFIX_EXPR RANGE_EXPR RECORD_EXPR REF_EXPR RETURN_EXPR BECOME_EXPR TRY_EXPR
    TUPLE_EXPR UNDERSCORE_EXPR WHILE_EXPR YEET_EXPR YIELD_EXPR""")
PAT = group("""IDENT_PAT BOX_PAT REST_PAT LITERAL_PAT MACRO_PAT OR_PAT PAREN_PAT PATH_PAT WILDCARD_PAT RANGE_PAT RECORD_PAT REF_PAT
    SLICE_PAT TUPLE_PAT TUPLE_STRUCT_PAT CONST_BLOCK_PAT DEREF_PAT NOT_NULL CFG_PRED_PAT""")
TYPE = group("""ARRAY_TYPE DYN_TRAIT_TYPE FN_PTR_TYPE FOR_TYPE IMPL_TRAIT_TYPE INFER_TYPE MACRO_TYPE NEVER_TYPE PAREN_TYPE PATH_TYPE
    PATTERN_TYPE PTR_TYPE REF_TYPE SLICE_TYPE TUPLE_TYPE""")
ITEM = group("""CONST ENUM EXTERN_BLOCK EXTERN_CRATE FN IMPL MACRO_CALL MACRO_DEF MACRO_RULES MODULE STATIC STRUCT TRAIT TYPE_ALIAS UNION
    USE ASM_EXPR""")
BLOCK_ITEM = ITEM - group("MACRO_CALL ASM_EXPR")
STMT = ITEM | group("LET_STMT EXPR_STMT")
GENERIC_ARG = group("TYPE_ARG ASSOC_TYPE_ARG LIFETIME_ARG CONST_ARG")
GENERIC_PARAM = group("TYPE_PARAM CONST_PARAM LIFETIME_PARAM")
META = group("CFG_META CFG_ATTR_META UNSAFE_META PATH_META KEY_VALUE_META TOKEN_TREE_META")
CFG_PRED = group("CFG_ATOM CFG_COMPOSITE")
GROUPS = {"EXPR": EXPR, "PAT": PAT, "TYPE": TYPE, "GENERIC_ARG": GENERIC_ARG, "GENERIC_PARAM": GENERIC_PARAM}


def first(node, kinds):
    """The first child whose kind is one of these, or None."""
    for child in node.children:
        if child.kind in kinds:
            return child
    return None


def only(node, kind):
    """The first child of this kind, or None."""
    for child in node.children:
        if child.kind == kind:
            return child
    return None


def every(node, kinds):
    """The children whose kinds are among these, in order."""
    return [child for child in node.children if child.kind in kinds]


def each(node, kind):
    """The children of this kind, in order."""
    return [child for child in node.children if child.kind == kind]


def has(node, kind):
    """Whether a child is of this kind."""
    return only(node, kind) is not None


def first_token(node):
    """The first token in a node, in the order of the text, or None."""
    while node is not None and node.children is not None:
        node = next((token for token in map(first_token, node.children) if token is not None), None)
    return node


def comma_follows(node, token):
    """Whether a comma is the next token behind the first child `token`, be it in a node of an error."""
    at = next((i for i, child in enumerate(node.children) if child.kind == token), None)
    if at is None:
        return False
    behind = next((found for found in map(first_token, node.children[at + 1:]) if found is not None), None)
    return behind is not None and behind.kind == "COMMA"


def path_segments(path):
    """The segments of a path from first to last; None where one is absent."""
    out = []
    while path is not None:
        out.append(only(path, "PATH_SEGMENT"))
        path = only(path, "PATH")
    return out[::-1]
