"""One order of a journal's records, and the column of each on the time line.

Under `sim` and `qv` one thread made all records, so the order is the run's own: lane 0, with the records of each
stimulus right behind the look that its `stim` names. Each record has a column of its own.

Under `qk` and `port` lanes run side by side. A record stands in the first column behind all that must stand before
it: the record before it in its lane, and, by the numbers that are drawn and shown on one word, what has a lower
number there. All starts stand first, since nothing else runs meanwhile. Records of one column have no order between
them; the one order takes them lane by lane.

Some journals have no such order, lawful ones too: two sources may each see the other's queue before its post. The
records that don't fit are told.
"""

from collections import Counter, defaultdict, deque
from collections.abc import Iterable
from dataclasses import dataclass, field

from .journal import PORT, QK, QV, SIM, Journal, Record
from .touches import Touch, Word, touch_of

Place = tuple[int, int]

ONE_THREAD = (
    "The run's own order: one thread made the records, and each stimulus stands right behind the look in which it "
    "happened."
)
ALIGNED = (
    "Lanes run side by side. Each keeps its own order, and a record stands in the first column behind what must "
    "stand before it by the numbers drawn and shown on each word; starts come first. Records of one column have no "
    "order between them."
)


@dataclass
class Order:
    """The lane and place of each record in order, its column, and which numbers don't fit this order."""

    places: list[Place]
    columns: list[int]
    meaning: str
    against: list[int]


def order_of(journal: Journal, objects: int) -> Order:
    """The order of a journal of a system with so many objects."""
    if journal.kernel in (SIM, QV):
        places = _run_order(journal.lanes)
        columns = list(range(len(places)))
        meaning = ONE_THREAD
    else:
        columned = sorted(_Alignment(journal, objects).columned())
        places = [(lane, at) for _, lane, at in columned]
        columns = [column for column, _, _ in columned]
        meaning = ALIGNED
    return Order(places, columns, meaning, _against(journal.lanes, places))


def _run_order(lanes: list[list[Record]]) -> list[Place]:
    pieces: dict[int, list[Place]] = defaultdict(list)
    for lane, records in enumerate(lanes[1:], 1):
        look = 0
        for at, record in enumerate(records):
            if record.word == "stim":
                look = record.numbers[2]
            pieces[look].append((lane, at))
    places: list[Place] = []
    for at, record in enumerate(lanes[0] if lanes else []):
        places.append((0, at))
        if record.word == "look":
            places += pieces.pop(record.numbers[1], [])
    return places + [place for piece in pieces.values() for place in piece]


def _against(lanes: list[list[Record]], places: list[Place]) -> list[int]:
    """The records whose number isn't that of their word's operations before them."""
    drawn: Counter[Word] = Counter()
    against = []
    for index, (lane, at) in enumerate(places):
        touch = touch_of(lanes[lane][at])
        if touch is None:
            continue
        if touch.number != drawn[touch.word]:
            against.append(index)
        drawn[touch.word] += touch.draws
    return against


@dataclass
class _Progress:
    """How far a word has come: the numbers drawn, the last columns, shows that are left, and who waits for it."""

    drawn: int = 0
    column: int = -1
    shown_column: int = -1
    left: Counter = field(default_factory=Counter)
    waiting: list[int] = field(default_factory=list)

    def admits(self, touch: Touch) -> bool:
        if touch.draws:
            return touch.number == self.drawn and not self.left[touch.number]
        return touch.number <= self.drawn

    def least_column(self, touch: Touch) -> int:
        return 1 + (max(self.column, self.shown_column) if touch.draws else self.column)

    def pass_on(self, touch: Touch, column: int) -> None:
        if touch.draws:
            self.drawn = max(self.drawn, touch.number + 1)
            self.column = max(self.column, column)
        else:
            self.left[touch.number] -= 1
            self.shown_column = max(self.shown_column, column)


class _Alignment:
    """Places the lanes' records, each as soon as all that must stand before it is placed."""

    def __init__(self, journal: Journal, objects: int):
        self._lanes = journal.lanes
        self._starts = _starts(journal, objects)
        self._words: dict[Word, _Progress] = defaultdict(_Progress)
        self._next = [0] * len(self._lanes)
        self._column = [-1] * len(self._lanes)
        self._placed: list[tuple[int, int, int]] = []
        for lane, records in enumerate(self._lanes):
            for at in range(len(records)):
                for touch in self._touches(lane, at):
                    if not touch.draws:
                        self._words[touch.word].left[touch.number] += 1

    def columned(self) -> list[tuple[int, int, int]]:
        """Each record as its column, lane and place. Where the numbers of a journal let no record come next, one that
        only comes before what shows fewer operations does, or else the first one left of the lowest lane."""
        self._run(range(len(self._lanes)))
        while left := [lane for lane, records in enumerate(self._lanes) if self._next[lane] < len(records)]:
            lane = next((lane for lane in left if self._lacks_only_shows(lane)), left[0])
            self._run(self._place(lane) + [lane])
        return self._placed

    def _lacks_only_shows(self, lane: int) -> bool:
        touches = self._touches(lane, self._next[lane])
        return all(touch.number <= self._words[touch.word].drawn for touch in touches)

    def _touches(self, lane: int, at: int) -> list[Touch]:
        touch = touch_of(self._lanes[lane][at])
        return ([touch] if touch else []) + self._starts.get((lane, at), [])

    def _run(self, lanes: Iterable[int]) -> None:
        todo = deque(lanes)
        while todo:
            lane = todo.popleft()
            while self._next[lane] < len(self._lanes[lane]):
                touches = self._touches(lane, self._next[lane])
                closed = next((t for t in touches if not self._words[t.word].admits(t)), None)
                if closed:
                    self._words[closed.word].waiting.append(lane)
                    break
                todo.extend(self._place(lane))

    def _place(self, lane: int) -> list[int]:
        """Places a lane's next record; answers the lanes that waited for one of its words."""
        at = self._next[lane]
        touches = self._touches(lane, at)
        column = max([self._column[lane] + 1, *(self._words[t.word].least_column(t) for t in touches)])
        woken: list[int] = []
        for touch in touches:
            word = self._words[touch.word]
            word.pass_on(touch, column)
            woken += word.waiting
            word.waiting = []
        self._placed.append((column, lane, at))
        self._next[lane], self._column[lane] = at + 1, column
        return woken


def _starts(journal: Journal, objects: int) -> dict[Place, list[Touch]]:
    """The starts as a word of their own: each start that is done draws its next number."""
    found: dict[Place, list[Touch]] = defaultdict(list)

    def touch(lane: int, at: int, number: int, draws: bool) -> None:
        if at < len(journal.lanes[lane]):
            found[lane, at].append(Touch(("starts",), number, draws))

    lanes = journal.lanes
    first_source = 1
    if journal.kernel == PORT:
        first_source = objects + 1
        for lane in range(1, min(first_source, len(lanes))):
            done = _place_of_done(lanes[lane], 1)
            touch(lane, 0, lane - 1, False)
            if done is not None:
                touch(lane, done, lane - 1, True)
                touch(lane, done + 1, objects, False)
    elif journal.kernel == QK and lanes:
        done = _place_of_done(lanes[0], objects)
        if done is not None:
            touch(0, done, objects - 1, True)
            for earlier in range(objects - 1):
                if (before := _place_of_done(lanes[0], earlier + 1)) is not None:
                    touch(0, before, earlier, True)
    for lane in range(first_source, len(lanes)):
        touch(lane, 0, objects, False)
    return found


def _place_of_done(records: list[Record], count: int) -> int | None:
    """Where the `done` with this count stands, from 1."""
    for at, record in enumerate(records):
        count -= record.word == "done"
        if not count:
            return at
    return None
