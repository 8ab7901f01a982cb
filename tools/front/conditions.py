"""Which conditions hold, and which attribute disables what it stands at."""
from . import texts
from .tree import CFG_PRED, META, every, first, only


class Conditions:
    """A set of atoms that hold, as `unix` or `feature="x"`; all others don't."""

    def __init__(self, atoms):
        self.atoms = frozenset(atoms)

    def holds(self, predicate):
        """True or False, or None where the predicate can't be read."""
        if predicate is None:
            return None
        if predicate.kind == "CFG_ATOM":
            return self.atom_holds(predicate)
        word, parts = only(predicate, "IDENT"), every(predicate, CFG_PRED)
        word = word and word.text
        if word == "not":
            answer = self.holds(parts[0]) if len(parts) == 1 else None
            return None if answer is None else not answer
        return self.all_or_any(parts, word == "all") if word in ("all", "any") else None

    def atom_holds(self, atom):
        """Whether a name, or a name with a value, is among the atoms; `true` and `false` speak for themselves."""
        name = first(atom, ("IDENT", "TRUE_KW", "FALSE_KW"))
        if name is None:
            return None
        value = only(atom, "STRING")
        if value is None:
            return name.kind == "TRUE_KW" or (name.kind == "IDENT" and name.text in self.atoms)
        return f'{name.text}="{texts.as_text(texts.quoted(value.text, "r", "str"))}"' in self.atoms

    def all_or_any(self, parts, wanted):
        """Behind a part that settles it no other is asked."""
        for part in parts:
            answer = self.holds(part)
            if answer is not wanted:
                return answer
        return wanted

    def disabled_by(self, attributes):
        """The predicate of the first `cfg` among the attributes that doesn't hold, or None."""
        for attribute in attributes:
            waiting = [meta for meta in [first(attribute, META)] if meta is not None]
            while waiting:
                meta = without_unsafe(waiting.pop())
                predicate = first(meta, CFG_PRED) if meta is not None else None
                if predicate is None:
                    continue
                if meta.kind == "CFG_ATTR_META" and self.holds(predicate) is not False:
                    waiting.extend(reversed(every(meta, META)))
                elif meta.kind == "CFG_META" and self.holds(predicate) is False:
                    return predicate
        return None


def without_unsafe(meta):
    """What stands in `unsafe(..)` of an attribute, or the attribute's own content."""
    while meta is not None and meta.kind == "UNSAFE_META":
        meta = first(meta, META)
    return meta
