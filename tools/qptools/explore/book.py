"""The journal of a path: the records of its moves, with the numbers that the search leaves out."""

from collections import Counter, defaultdict

from qpviewer.system_parts import System

from .spot import Entry

#: A block by its pool, from 1, and its number.
Block = tuple[int, int]
#: Where the name of a reference is kept: in a hand, or of a call under way, of a lane and an object.
Slot = tuple[str, int, int]
_BITS = 2**64
FRESH, AGAIN, HAND, RECALLED = "fresh", "again", "hand", "recalled"


class Book:
    """Writes records, each behind the others of its lane, while a state is changed move by move."""

    def __init__(self, system: System, lanes: int):
        self.system = system
        self.lanes: list[list[str]] = [[] for _ in range(lanes)]
        self._drawn: Counter[tuple] = Counter()
        self._counts = {owner.priority: [0, 0, 0] for owner in system.objects}
        self._free = [list(range(pool.blocks)) for pool in system.pools]
        self._blocks: dict[int, Block] = {}
        self._references: dict[Block, int] = {}
        self._queued: dict[int, list[int]] = defaultdict(list)
        self._kept: dict[int, list[int]] = defaultdict(list)
        self._slots: dict[Slot, int] = {}
        self._ceilings: dict[int, list[int]] = defaultdict(lambda: [0])
        self._looks = 0
        self._looking = False
        #: The row of looks at the base: where it begins, how many looks were before it, and whether it has a step.
        self._row, self._before, self._has_step = 0, 0, False

    def text(self, kernel: int, budget: int, status: int) -> str:
        """The whole journal."""
        lines = [f"qp 1 {kernel} {budget}"]
        for number, records in enumerate(self.lanes):
            lines += [f"lane {number}", *records]
        return "\n".join([*lines, f"end {status}", ""])

    def add(self, lane: int, word: str, *numbers: int) -> None:
        self.lanes[lane].append(" ".join((word, *(str(number % _BITS) for number in numbers))))

    def _draw(self, *word: object) -> int:
        self._drawn[word] += 1
        return self._drawn[word] - 1

    def shown(self, *word: object) -> int:
        return self._drawn[word]

    def drawn(self, lane: int, word: str, o: int, on: tuple, *numbers: int) -> None:
        """A record that draws a number of a signal's word or a timer's."""
        self.add(lane, word, o, on[1], self._draw(*on), *numbers)

    def _entry(self, entry: Entry, name: int) -> tuple[int, int, int]:
        return (*self._blocks[entry.block], name) if entry.block else (0, entry.signal, 0)

    def lock(self, lane: int, o: int, ceiling: int) -> None:
        """The lane's ceiling is raised at least to this."""
        self._ceilings[lane].append(max(ceiling, self._ceilings[lane][-1]))
        self.add(lane, "lock", o, self._ceilings[lane][-1])

    def unlock(self, lane: int, o: int) -> None:
        self._ceilings[lane].pop()
        self.add(lane, "unlock", o, self._ceilings[lane][-1])

    # Looks of lane 0 under `qk`. A row at the base begins with the first queue that it sees, and is left out where it finds nothing.

    def look(self, floor: int, sees: bool) -> None:
        """A look begins; it has a queue to see, or ends at once."""
        self._looks += 1
        self.add(0, "look", 0, self._looks, floor)
        self._looking = sees

    def see(self, priority: int) -> None:
        """A queue is looked at."""
        if not self._looking:
            self._row, self._before, self._has_step = len(self.lanes[0]), self._looks, False
            self.look(0, True)
        self.add(0, "seen", 0, priority, *self._counts[priority])

    def found_entry(self) -> None:
        self._looking, self._has_step = False, True

    def end_look(self) -> None:
        self._looking = False

    def end_row(self) -> None:
        """A row at the base is over."""
        self._looking = False
        if not self._has_step:
            del self.lanes[0][self._row:]
            self._looks = self._before

    def finish_row(self, left: list[int]) -> None:
        """The row at the base that is under way sees these queues too, which are empty."""
        if self._looking:
            for priority in left:
                self.see(priority)
            self.end_row()

    # Pools and references.

    def new(self, lane: int, o: int, entry: Entry) -> None:
        block = self._free[entry.pool].pop(0)
        place = (entry.pool + 1, block)
        self._blocks[entry.block] = place
        self._references[place] = 0
        self.add(lane, "new", o, entry.pool + 1, self._draw("pool", entry.pool), block, self.shown("block", place), entry.signal, *entry.params)
        self.refer(lane, o, entry, FRESH)

    def short(self, lane: int, o: int, pool: int, reserve: int) -> None:
        self.add(lane, "short", o, pool + 1, self.shown("pool", pool), len(self._free[pool]), reserve)

    def refer(self, lane: int, o: int, entry: Entry, slot: str) -> None:
        """A reference is made; a static event has none."""
        if entry.block:
            place = self._blocks[entry.block]
            self._references[place] += 1
            self._slots[slot, lane, o] = self._draw("block", place)
            self.add(lane, "inc", o, *place, self._slots[slot, lane, o])

    def _take_slot(self, entry: Entry, slot: str, lane: int, o: int) -> int:
        return self._slots.pop((slot, lane, o)) if entry.block else 0

    def drop(self, lane: int, o: int, entry: Entry, slot: str) -> None:
        """The reference kept there is dropped, and the block comes back behind the last one."""
        if not entry.block:
            return
        place, name = self._blocks[entry.block], self._slots.pop((slot, lane, o))
        self._references[place] -= 1
        number = self._draw("block", place)
        self.add(lane, "dec", o, *place, number, name)
        if self._references[place] == 0:
            del self._blocks[entry.block]
            self._free[place[0] - 1] = sorted([*self._free[place[0] - 1], place[1]])
            self.add(lane, "back", o, place[0], self._draw("pool", place[0] - 1), place[1], number + 1)

    # Queues and deferred lists.

    def post(self, lane: int, o: int, to: int, entry: Entry, slot: str) -> None:
        name = self._take_slot(entry, slot, lane, o)
        self._counts[to][0] += 1
        self._queued[to].append(name)
        self.add(lane, "post", o, to, *self._counts[to], *self._entry(entry, name))

    def lifo(self, lane: int, o: int, entry: Entry, slot: str) -> None:
        name = self._take_slot(entry, slot, lane, o)
        self._counts[o][1] += 1
        self._queued[o].insert(0, name)
        self.add(lane, "lifo", o, *self._counts[o], *self._entry(entry, name))

    def full(self, lane: int, o: int, to: int, margin: int) -> None:
        self.add(lane, "full", o, to, *self._counts[to], margin)

    def took(self, lane: int, o: int, entry: Entry) -> None:
        name = self._queued[o].pop(0)
        self._counts[o][2] += 1
        if entry.block:
            self._slots[HAND, lane, o] = name
        self.add(lane, "took", o, *self._counts[o], *self._entry(entry, name))

    def defer(self, lane: int, o: int, entry: Entry) -> None:
        self.refer(lane, o, entry, AGAIN)
        name = self._take_slot(entry, AGAIN, lane, o)
        self._kept[o].append(name)
        self.add(lane, "defer", o, *self._entry(entry, name))

    def undefer(self, lane: int, o: int, word: str, entry: Entry) -> None:
        """The oldest entry is recalled or flushed; its reference is kept until it is dropped."""
        name = self._kept[o].pop(0)
        if entry.block:
            self._slots[RECALLED, lane, o] = name
        self.add(lane, word, o, *self._entry(entry, name))

    def counts(self, priority: int) -> list[int]:
        """How many first-in posts, last-in posts and takes a queue had."""
        return self._counts[priority]

    def withdraw_stimulus(self, lane: int) -> None:
        """A `stim` with no record behind it isn't written."""
        if self.lanes[lane] and self.lanes[lane][-1].startswith("stim "):
            self.lanes[lane].pop()

    def settle(self, lane: int) -> None:
        self.add(lane, "settle", 0)
        for owner in self.system.objects:
            self.add(lane, "seen", 0, owner.priority, *self._counts[owner.priority])
