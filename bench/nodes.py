"""Documents of very many nodes, as bench.py measures them: what makes one, by the name of its shape."""

# A tree has at most 256 levels. A chain stands on three others: the function, its body, the statement.
CHAIN = 252
# A chain of types stands on the tuple around it, and has a type of one word at its end.
TYPE_CHAIN = 254
# So many names are bound by each alternative of an or-pattern, and so many labels there are.
NAMES = 100
# So many calls of macros are entered in one another, and no more may be.
ENTERED = 64

SHAPES = {}
MODES = {}


def shape(mode="body"):
    """Lists what makes a document of at most so many nodes, by its name, with the mode in which it is lowered."""
    def listed(make):
        SHAPES[make.__name__] = make
        MODES[make.__name__] = mode
        return make

    return listed


class Nodes:
    """A list of nodes in which each child stands after its parent, and tables."""

    def __init__(self):
        self.all = []
        self.env = {}

    def add(self, kind, **fields):
        """Adds a node, and answers its number."""
        self.all.append({"k": kind, **fields})
        return len(self.all) - 1

    def child(self, parent, field, kind, **fields):
        """Adds a node as what the field of another one says."""
        self.all[parent][field] = number = self.add(kind, **fields)
        return number

    def item(self, parent, field, kind, **fields):
        """Adds a node behind the others that the field of another one lists."""
        number = self.add(kind, **fields)
        self.all[parent][field].append(number)
        return number

    def statement(self, block):
        """Adds a statement with a semicolon, whose expression is the next node."""
        statement = self.item(block, "stmts", "ExprStmt", semi=True)
        self.all[statement]["expr"] = statement + 1

    def statements(self, block, count, size):
        """Statements of so many nodes each, as many as have room; whoever takes one adds its expression."""
        while len(self.all) + count <= size:
            self.statement(block)
            yield

    def labelled(self, kind, number):
        """Adds a loop of a kind with the label of a number."""
        here = self.add(kind)
        self.child(here, "label", "Label", lifetime="'l%d" % number)
        return here

    def around_next(self, here):
        """Gives a loop a block for a body, whose tail is the next node."""
        inner = self.child(here, "body", "BlockExpr")
        self.all[inner]["tail"] = inner + 1


def body():
    """A function with an empty block, and the block's number."""
    nodes = Nodes()
    nodes.add("Fn", body=1)
    return nodes, nodes.add("BlockExpr", stmts=[])
