"""Where a part of a tree is read, as far as it decides what is asked there."""
import dataclasses

# Which lifetimes count inside of the bounds of an `impl`, and inside of `<T as Trait>`, by those that count around it.
IN_IMPL = {"nowhere": "output", "output": "output", "bound": "bound", "input": "bound", "projection": "bound"}
IN_PROJECTION = {"input": "projection"}


@dataclasses.dataclass(frozen=True)
class Place:
    """The file, the module, whether numbers of blocks are asked for, the scope of lifetimes, whether it is inside of an `impl` in a type,
    and how many more macro calls may be entered."""

    file: int
    module: int
    is_analysed: bool
    scope: str
    is_in_impl: bool
    left: int

    def within(self, file):
        """Inside of an expansion."""
        return dataclasses.replace(self, file=file, left=self.left - 1)

    def in_module(self, module):
        """Inside of a block with this module."""
        return dataclasses.replace(self, module=module)

    def in_impl(self):
        """Inside of the bounds of an `impl` in a type."""
        return dataclasses.replace(self, is_in_impl=True, scope=IN_IMPL[self.scope])

    def outside_impl(self):
        """Inside of an associated type argument, where an `impl` may stand."""
        return dataclasses.replace(self, is_in_impl=False)

    def in_projection(self):
        """Inside of `<T as Trait>`."""
        return dataclasses.replace(self, scope=IN_PROJECTION.get(self.scope, self.scope))

    def in_scope(self, scope):
        """Where other lifetimes count, outside of each `impl`."""
        return dataclasses.replace(self, scope=scope)
