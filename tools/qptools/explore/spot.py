"""A state of the search: what the words hold and how far each lane is, without numbers of operations and without names of blocks."""

from collections.abc import Iterator
from typing import TYPE_CHECKING, NamedTuple

if TYPE_CHECKING:
    from .book import Book


class Entry(NamedTuple):
    """An event by value. Entries of one block have the same number `block`, 0 for a static event; `pool` is its place, from 0."""

    block: int
    pool: int
    signal: int
    params: tuple[int, ...]


class Stage(NamedTuple):
    """How far a call is: the word of what comes next, the event in hand, and who is still to be posted to, or how many were flushed."""

    word: str
    entry: Entry | None = None
    left: tuple[int, ...] = ()


#: A call that hasn't begun, and a lane that stopped behind an assertion.
BEGIN, ASSERTED = "begin", "asserted"
START = Stage(BEGIN)


class Lane(NamedTuple):
    """An object: its leaf, variables and `ok`; within a step its event, the agenda with how much of it is done, and the stage of its call."""

    leaf: int
    vars: tuple[int, ...]
    ok: int
    hand: Entry | None
    agenda: int
    done: int
    stage: Stage


class Source(NamedTuple):
    """A source: the place in its stimuli, from 0, the time event of a tick, and the stage of its call."""

    place: int
    timer: int
    stage: Stage


class Kernel(NamedTuple):
    """Lane 0 of `qk`: the steps under way, the innermost last; the ceilings in force, and the object that the row of looks comes to next,
    or -1 where none is under way."""

    running: tuple[int, ...]
    ceilings: tuple[int, ...]
    row: int


class Spot(NamedTuple):
    """A state. `sets` are bits by object; `timers` have counter and interval."""

    free: tuple[int, ...]
    queues: tuple[tuple[Entry, ...], ...]
    deferred: tuple[tuple[Entry, ...], ...]
    sets: tuple[int, ...]
    timers: tuple[tuple[int, int], ...]
    lanes: tuple[Lane, ...]
    sources: tuple[Source, ...]
    kernel: Kernel


class Draft:
    """A state while it is changed, and the journal that is written of the changes, where one is."""

    def __init__(self, spot: Spot, book: "Book | None" = None):
        self.book = book
        self.free = list(spot.free)
        self.queues = list(spot.queues)
        self.deferred = list(spot.deferred)
        self.sets = list(spot.sets)
        self.timers = list(spot.timers)
        self.lanes = list(spot.lanes)
        self.sources = list(spot.sources)
        self.kernel = spot.kernel

    def _entries(self) -> Iterator[Entry]:
        """The entry in each place that refers to a block."""
        for entries in (*self.queues, *self.deferred):
            yield from entries
        for lane in self.lanes:
            for entry in (lane.hand, lane.stage.entry):
                if entry:
                    yield entry
        for source in self.sources:
            if source.stage.entry:
                yield source.stage.entry

    def holders(self, entry: Entry) -> int:
        """How many places refer to an entry's block."""
        return sum(other.block == entry.block for other in self._entries())

    def new_block(self) -> int:
        """A number that no block has."""
        return 1 + max((entry.block for entry in self._entries()), default=0)

    def frozen(self) -> Spot:
        """The state, with its blocks numbered by their first place."""
        numbers = {0: 0}
        for entry in self._entries():
            numbers.setdefault(entry.block, len(numbers))
        if all(old == new for old, new in numbers.items()):
            return Spot(tuple(self.free), tuple(self.queues), tuple(self.deferred), tuple(self.sets), tuple(self.timers), tuple(self.lanes),
                        tuple(self.sources), self.kernel)

        def named(entry: Entry) -> Entry:
            return entry._replace(block=numbers[entry.block])

        def staged(stage: Stage) -> Stage:
            return stage._replace(entry=named(stage.entry)) if stage.entry else stage

        return Spot(
            tuple(self.free), tuple(tuple(map(named, queue)) for queue in self.queues),
            tuple(tuple(map(named, queue)) for queue in self.deferred), tuple(self.sets), tuple(self.timers),
            tuple(lane._replace(hand=lane.hand and named(lane.hand), stage=staged(lane.stage)) for lane in self.lanes),
            tuple(source._replace(stage=staged(source.stage)) for source in self.sources), self.kernel,
        )
