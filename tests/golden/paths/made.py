"""Makes golden tests of paths that are too large to stand here as files."""
from golden import Test

LEVELS = 255
SUPERS = 100000


def use_trees():
    """Use trees on as many levels as a tree may have, the segment of the outermost on the last one."""
    inner = [f',"use":{level + 1}' if level < LEVELS - 1 else "" for level in range(LEVELS)]
    nodes = [f'{{"k":"Path","segs":[{LEVELS + level}]{inner[level]}}}' for level in range(LEVELS)]
    nodes += [f'{{"k":"PathSegment","seg":"name","name":"a{level}"}}' for level in range(LEVELS)]
    path = "::".join(f"a{level}" for level in reversed(range(LEVELS)))
    return document_of(nodes), f"path {path}\nsegment 0 a0\nsegment 1 None\n".encode()


def supers():
    """A module very far above."""
    segments = ",".join(str(number) for number in range(1, SUPERS + 2))
    nodes = [f'{{"k":"Path","segs":[{segments}]}}', *SUPERS * ['{"k":"PathSegment","seg":"super"}']]
    nodes.append('{"k":"PathSegment","seg":"name","name":"a"}')
    return document_of(nodes), f"path {SUPERS * 'super::'}a\nsegment 0 a\nsegment 1 None\n".encode()


def document_of(nodes):
    """A document of these nodes."""
    return f'{{"nodes":[{",".join(nodes)}]}}'.encode()


def made():
    """All tests that this makes."""
    document, listing = use_trees()
    yield Test("use_trees_on_all_levels", "path", document, listing)
    document, listing = supers()
    yield Test("very_many_supers", "path", document, listing, once=True)
