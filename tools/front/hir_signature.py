"""Prints the signature of a function as upstream does."""
from .hir_output import Output
from .hir_print import HirPrinter
from .hir_types import KEYWORDS


class SignaturePrinter(HirPrinter):
    """Prints what a listing of mode `fn` holds, without the words in front of `fn`."""

    def signature(self, name):
        """The signature of the function of this name."""
        if name.startswith("r#") and name[2:] not in KEYWORDS:
            name = name[2:]
        self.out = Output(f"fn {name}")
        self.generics()
        self.out.write("(")
        self.types(self.listed.args)
        self.out.write(")")
        if self.listed.answer is not None:
            self.out.write(" -> ")
            self.type(self.listed.answer)
        if self.listed.where:
            self.out.write("\nwhere\n")
            self.out.indented(self.where)
            self.out.newline()
        self.out.write(" {...}")
        self.out.newline()
        return self.out.text()

    def generics(self):
        """The parameters between angles: first the lifetimes."""
        writers = [lambda name=name: self.out.write(self.lifetime(name)) for name, _ in self.listed.lifetimes]
        writers += [lambda param=param: self.param(*param) for param in self.listed.params]
        for at, write in enumerate(writers):
            self.out.write(", " if at else "<")
            write()
        self.out.write(">" if writers else "")

    def param(self, kind, number, name, more, default):
        """A type, or a constant with its type; one without a name by its number."""
        if kind == "const":
            self.out.write(f"const {self.name(name)}: ")
            self.type(more)
            self.optional(" = ", default)
            return
        self.out.write(f"Param[{number}]" if name == "-" else self.name(name))
        if default is not None:
            self.out.write(" = ")
            self.type(default)

    def where(self):
        """The predicates, a line each."""
        for at, (binder, target, bound) in enumerate(self.listed.where):
            self.out.write(",\n" if at else "")
            self.out.write(self.binder(binder))
            if target[0] == "lifetime":
                self.out.write(self.lifetime(target[1]))
            else:
                self.type(target)
            self.out.write(": ")
            self.bounds([bound])
