"""Compares the list of a document with what a recorder kept."""
import collections
import dataclasses

# What is asked of single contexts, which are one question of the list.
OF_CONTEXTS = ("context_parent", "opaque", "outer_macro")


def sort_of(question):
    """The first word of a question."""
    return question.partition(" ")[0]


@dataclasses.dataclass
class Comparison:
    """Of one document: what lowering has to ask and didn't, what it asked that it has no need to, and what it left out, by the reason."""

    missing: list
    needless: list
    left_out: collections.Counter
    # How many questions of each sort lowering has to ask.
    required: collections.Counter

    def is_right(self):
        """Whether the log holds all that lowering has to ask, and nothing else."""
        return not self.missing and not self.needless


def compare(listed, beside, log):
    """Compares questions, each with the reason for which lowering leaves it out or None, with a log, which has the same questions as lines.
    The log may hold what is asked beside the list."""
    asked = set(log)
    required = {question: None for question, reason in listed.items() if reason is None}
    allowed = OF_CONTEXTS if "contexts" in listed else ()
    return Comparison(
        missing=[question for question in required if question not in asked],
        needless=sorted(question for question in asked - set(required) - set(beside) if sort_of(question) not in allowed),
        left_out=collections.Counter(f"{reason} {sort_of(question)}" for question, reason in listed.items() if reason is not None),
        required=collections.Counter(map(sort_of, required)),
    )
