"""Where to look first for what a verdict on an object or a lane says: a record of its site, found by reading the journal in order.

The verdict says that a definition fails and at which site. Which record is wrong it doesn't say, and often several
could be: what is answered here is the first one that doesn't fit those before it. Verdicts on words are followed by
`word_places`.
"""

from collections.abc import Callable

from .journal import Journal
from .lane_suspects import kernel_suspect, source_suspect
from .object_suspects import course_suspect, shape_suspect
from .order import Order
from .sites import Told
from .system_parts import System
from .verdict import Verdict

_FINDERS: dict[str, Callable[[Told, Verdict], int | None]] = {
    "D15": shape_suspect, "D7": course_suspect, "D19": kernel_suspect, "D20": source_suspect,
}


def first_suspect(
    verdict: Verdict, system: System, stimuli: list[list[str]], journal: Journal, order: Order
) -> int | None:
    """The place in order of the first record of a verdict's site that doesn't fit; none where this reading finds none."""
    finder = _FINDERS.get(verdict.definition)
    return finder(Told(system, stimuli, journal, order), verdict) if finder else None
