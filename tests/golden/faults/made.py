"""Makes golden tests that are too large or too many to stand here as files."""
import os

from golden import Test, read

HERE = os.path.dirname(os.path.abspath(__file__))
FIRST = os.path.join(HERE, os.pardir, "first_body", "labelled_loop_with_sources.golden")
FUNCTION = '{"k":"Fn","body":1}'
CALL = '{"k":"MacroCall"}'
ONE = '"k":"Literal","lit":"int","t":"1"'
LEVELS = 256


def listed(name, document, listing):
    """The test of this name has this document and this listing."""
    return Test(name, "body", document.encode(), output=listing.encode())


def refused(name, document, fault, once=False):
    """The test of this name has this document, which is this fault."""
    return Test(name, "body", document, error=f"fault: {fault}\n".encode(), once=once)


def many_nodes(behind):
    """A document of so many nodes behind its first one."""
    return b'{"nodes":[{"k":"Fn"}' + behind * b',{"k":"Item"}' + b"]}"


def large_documents():
    """As many nodes as are allowed, and one more."""
    yield refused("one_node_too_many", many_nodes(1000000), "too many nodes", once=True)
    yield refused("as_many_nodes_as_allowed", many_nodes(999999), "node 1: unused", once=True)


def bytes_that_are_no_document():
    """Every beginning of a document that is one line, up to its last brace, and a byte that no text has."""
    whole = read(FIRST).document.translate(None, b" \n")
    for length in range(len(whole)):
        yield refused(f"first_{length}_bytes_of_a_document", whole[:length], "not JSON")
    yield refused("not_utf8", b'{"nodes":[{"k":"Fn"}],"x":"\xff"}', "not JSON")


def nested(kind, field, numbers):
    """Nodes of these numbers, each in the one before it; behind the last one there is another node."""
    return "".join(f',{{"k":"{kind}","{field}":{number + 1}}}' for number in numbers)


def document_of(nodes, expansion):
    """A document of a constant, whose nodes are these, with a call that has this expansion."""
    return f'{{"owner":"const","nodes":[{nodes}],"env":{{"macros":[[0,{expansion}]]}}}}'


def expansion(levels, behind=""):
    """A constant that is a call, whose expansion is this many nodes inside one another, and this behind it."""
    front = f'{FUNCTION},{{"k":"MacroExpr","call":2}},{CALL}'
    return document_of(front + nested("ParenExpr", "expr", range(3, levels + 2)) + f",{{{ONE}}}{behind}", '2,"file",1,3')


def expansions():
    """The tree of an expansion begins at level 1, wherever its call stands."""
    yield listed("expansion_as_deep_as_allowed", expansion(LEVELS), "body r0=(Literal 1)\nexpansion @2 1\n")
    yield refused("expansion_too_deep", expansion(LEVELS + 1).encode(), "node 259: too deep")
    unused = expansion(LEVELS + 1, ',{"k":"Item"}').encode()
    yield refused("unused_before_expansion_too_deep", unused, "node 260: unused")
    # A call at the last level of the tree, whose expansion is as deep again.
    nodes = FUNCTION + nested("ParenExpr", "expr", range(1, 254)) + f',{{"k":"MacroExpr","call":255}},{CALL}'
    nodes += nested("ParenExpr", "expr", range(256, 511)) + f",{{{ONE}}}"
    listing = "body r0=(Literal 1)\nexpansion @255 1\n"
    yield listed("expansion_of_a_call_as_deep_as_allowed", document_of(nodes, '255,"file",1,256'), listing)


def deep_fragment(name, listing, front, root, nest, leaf):
    """A call in another place, behind five nodes, which are `front`: `root` is the place of the root of its expansion, `nest` the kind and
    the field of each node in it but the innermost, `leaf`. As deep as allowed it has this listing; one level more is too deep."""
    def fragment(levels):
        return document_of(front + nested(*nest, range(5, levels + root - 1)) + f",{{{leaf}}}", f'3,"file",1,{root}')

    yield listed(f"{name}_as_deep_as_allowed", fragment(LEVELS), f"{listing}\nexpansion @3 1\n")
    yield refused(f"{name}_too_deep", fragment(LEVELS + 1).encode(), f"node {LEVELS + root}: too deep")


def deep_fragments():
    """Expansions in the place of statements, of a pattern and of a type."""
    front = f'{FUNCTION},{{"k":"BlockExpr","tail":2}},{{"k":"MacroExpr","call":3}},{CALL},{{"k":"MacroStmts","expr":5}}'
    listing = "body r0=(Block - - - [] (Literal 1))"
    yield from deep_fragment("statements_of_an_expansion", listing, front, 4, ("ParenExpr", "expr"), ONE)
    front = f'{FUNCTION},{{"k":"LetExpr","pat":2,"expr":4}},{{"k":"MacroPat","call":3}},{CALL},{{{ONE}}}'
    listing = "body r0=(Let (Wild) (Literal 1))"
    yield from deep_fragment("pattern_of_an_expansion", listing, front, 5, ("ParenPat", "pat"), '"k":"WildcardPat"')
    front = f'{FUNCTION},{{"k":"CastExpr","ty":2,"expr":4}},{{"k":"MacroType","call":3}},{CALL},{{{ONE}}}'
    listing = "body r0=(Cast (Literal 1) !)"
    yield from deep_fragment("type_of_an_expansion", listing, front, 5, ("ParenType", "ty"), '"k":"NeverType"')


def made():
    """All tests that this makes."""
    for tests in (large_documents, bytes_that_are_no_document, expansions, deep_fragments):
        yield from tests()
