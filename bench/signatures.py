"""Shapes of paths, types, aliases and signatures, and of names that hash alike."""
from hashes import alike, crowded
from nodes import TYPE_CHAIN, Nodes, shape


@shape("path")
def segments(size):
    """One path with very many segments, every tenth a `super`."""
    nodes = Nodes()
    path = nodes.add("Path", segs=[])
    while len(nodes.all) < size:
        word = {"seg": "super"} if len(nodes.all) % 10 == 0 else {"seg": "name", "name": "a"}
        nodes.item(path, "segs", "PathSegment", **word)
    return nodes


def one_list(size, kind, field, argument, **fields):
    """One path with very many arguments of two nodes each: of the kind, with a node of the other one in its field."""
    nodes = Nodes()
    nodes.add("PathType", path=1)
    nodes.add("Path", segs=[2])
    nodes.add("PathSegment", seg="name", name="A", generics=3)
    args = nodes.add("GenericArgList", args=[])
    while len(nodes.all) + 2 <= size:
        nodes.child(nodes.item(args, "args", kind), field, argument, **fields)
    return nodes


@shape("type")
def arguments(size):
    """One path with very many types as arguments."""
    return one_list(size, "TypeArg", "ty", "NeverType")


@shape("type")
def constants(size):
    """One path with very many constants as arguments, each a recorded root."""
    return one_list(size, "ConstArg", "expr", "Literal", lit="int", t="1")


@shape("type")
def nested(size):
    """One tuple of very many types, each as deep as a tree may be."""
    nodes = Nodes()
    fields = nodes.add("TupleType", fields=[])
    while len(nodes.all) + TYPE_CHAIN + 1 <= size:
        nodes.all[fields]["fields"].append(len(nodes.all))
        for _ in range(TYPE_CHAIN):
            here = nodes.add("RefType", mut=True)
            nodes.all[here]["ty"] = here + 1
        nodes.add("InferType")
    return nodes


@shape("pat")
def collisions(size):
    """One tuple of very many names, all of which a hash without a secret takes to one number."""
    nodes = Nodes()
    fields = nodes.add("TuplePat", fields=[])
    for name in alike(size - 1):
        nodes.item(fields, "fields", "IdentPat", name=name)
    return nodes


def lifetimes(nodes, owner, names):
    """Gives an item a list of lifetime parameters of these names."""
    generics = nodes.child(owner, "generics", "GenericParamList", params=[])
    for name in names:
        nodes.item(generics, "params", "LifetimeParam", lifetime=name)


def reference(nodes, lifetime):
    """A reference to the type without values, of two nodes."""
    here = nodes.add("RefType", lifetime=lifetime)
    nodes.child(here, "ty", "NeverType")
    return here


def signature(names, alias_names):
    """A function without body, with parameters of these names, and an alias `A` with those. Both are without types so far."""
    nodes = Nodes()
    nodes.env = {"resolve": [[0, "A", ["alias", 0], None, None]], "aliases": []}
    function = nodes.add("Fn")
    lifetimes(nodes, function, names)
    params = nodes.child(function, "params", "ParamList", params=[])
    alias = nodes.add("TypeAlias")
    nodes.env["aliases"].append([0, alias])
    lifetimes(nodes, alias, alias_names)
    fields = nodes.child(alias, "ty", "TupleType", fields=[])
    return nodes, nodes.all[fields]["fields"], nodes.all[params]["params"]


def use_of_alias(nodes, names):
    """A parameter of the alias `A` with arguments of these names, of five nodes and one for each name."""
    here = nodes.add("Param")
    ty = nodes.child(here, "ty", "PathType", path=here + 2)
    nodes.add("Path", segs=[ty + 2])
    nodes.add("PathSegment", seg="name", name="A", generics=ty + 3)
    args = nodes.add("GenericArgList", args=[])
    for name in names:
        nodes.item(args, "args", "LifetimeArg", lifetime=name)
    return here


@shape("fn")
def alias(size):
    """One use of an alias of one tuple of very many references: at 1,000,000 nodes as many types, but for some."""
    nodes, fields, params = signature(["'x", "'y"], ["'a", "'b"])
    params.append(use_of_alias(nodes, ["'x", "'y"]))
    while len(nodes.all) + 2 <= size:
        fields.append(reference(nodes, "'b"))
    return nodes


@shape("fn")
def alias_uses(size):
    """Very many uses of an alias that has a tenth of the nodes: at 1,000,000 nodes 128,000 uses of one of 100,000 types."""
    nodes, fields, params = signature(["'x", "'y"], ["'a", "'b"])
    while len(nodes.all) + 2 <= size // 10:
        fields.append(reference(nodes, "'b"))
    while len(nodes.all) + 7 <= size:
        params.append(use_of_alias(nodes, ["'x", "'y"]))
    return nodes


@shape("fn")
def alias_marks(size):
    """Very many uses of an alias, each with two names of its own, of which one constrains: at 1,000,000 nodes 111,000 uses."""
    uses = size // 9 - 2
    names = [["'x%d" % k, "'y%d" % k] for k in range(uses)]
    nodes, fields, params = signature([name for pair in names for name in pair], ["'a", "'b"])
    fields.append(reference(nodes, "'b"))
    for pair in names:
        params.append(use_of_alias(nodes, pair))
    return nodes


@shape("fn")
def alias_names(size):
    """One use of an alias that has very many lifetime parameters and names each: at 1,000,000 nodes 200,000 of them."""
    places = size // 5 - 5
    nodes, fields, params = signature(["'x%d" % k for k in range(places)], ["'a%d" % k for k in range(places)])
    for place in range(places):
        fields.append(reference(nodes, "'a%d" % place))
    params.append(use_of_alias(nodes, ["'x%d" % k for k in range(places)]))
    return nodes


def named_lifetimes(names):
    """A function with lifetime parameters of these names, each of which a bound of the next, an argument and what is returned name."""
    nodes = Nodes()
    function = nodes.add("Fn")
    generics = nodes.child(function, "generics", "GenericParamList", params=[])
    for before, name in zip(names[-1:] + names, names):
        parameter = nodes.item(generics, "params", "LifetimeParam", lifetime=name, bounds=[])
        nodes.item(parameter, "bounds", "TypeBound", b="lifetime", lifetime=before)
    params = nodes.child(function, "params", "ParamList", params=[])
    for name in names:
        param = nodes.item(params, "params", "Param")
        nodes.all[param]["ty"] = reference(nodes, name)
    answer = nodes.child(function, "ret", "RetType")
    tuple_of = nodes.child(answer, "ty", "TupleType", fields=[])
    for name in names:
        nodes.all[tuple_of]["fields"].append(reference(nodes, name))
    return nodes


@shape("fn")
def lifetime_names(size):
    """Very many lifetime parameters, 125,000 at 1,000,000 nodes, each named by a bound of the next, an argument and in what is returned."""
    return named_lifetimes(["'x%d" % k for k in range(size // 8)])


@shape("fn")
def lifetime_collisions(size):
    """Very many lifetimes that are named as those of `lifetime_names`, all of which a hash without a key takes to a few places."""
    return named_lifetimes(crowded(size // 8))


@shape("fn")
def binder_names(size):
    """An alias, which isn't printed, with a condition of very many bounds behind one `for<..>` of very many names: at 1,000,000 nodes
    500,000 names and 250,000 bounds. What is printed of such a condition repeats the names for each bound."""
    nodes = Nodes()
    nodes.add("Fn")
    alias = nodes.add("TypeAlias")
    nodes.env["aliases"] = [[0, alias]]
    where = nodes.child(alias, "where", "WhereClause", preds=[])
    condition = nodes.item(where, "preds", "WherePred", bounds=[])
    nodes.child(condition, "ty", "NeverType")
    nodes.child(condition, "binder", "ForBinder", params=["'x%d" % k for k in range(size // 2)])
    while len(nodes.all) + 4 <= size:
        bound = nodes.item(condition, "bounds", "TypeBound", b="path")
        nodes.child(bound, "ty", "PathType", path=bound + 2)
        nodes.add("Path", segs=[bound + 3])
        nodes.add("PathSegment", seg="name", name="A")
    return nodes
