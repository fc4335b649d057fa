"""What the records say of queues, blocks, pools, subscribers and time events, one record after another."""

from collections import Counter, defaultdict, deque
from typing import NamedTuple

from .journal import Record
from .naming import Names
from .system_parts import System

#: Kinds of arrows from a post to the take of its entry.
POST, PUBLICATION, TIME_EVENT, LAST_IN = range(4)

#: Where the entry of a record begins among its numbers.
ENTRY_AT = {"took": 4, "post": 5, "lifo": 4, "defer": 1, "recall": 1, "flush": 1}


class _Queued(NamedTuple):
    """An entry in a queue: where its arrow begins, the record of its post, and the arrow's kind."""

    origin: int
    post: int
    kind: int


class WordsTold:
    """Walks the records in order and keeps what they change.

    `changes` are lists of a word, the record's place in order, and numbers, for the page's script. `arrows` have the
    place where an arrow begins (its post, or the record of its publication), its post, its take, and its kind.
    `lengths` and `free` have the steps of a line for each queue and each pool.
    """

    def __init__(self, system: System, names: Names):
        self._names = names
        self._queues: dict[int, deque[_Queued]] = defaultdict(deque)
        self._events: dict[tuple[int, int], str] = {}
        self._publications: dict[tuple[int, int], tuple[int, set[int]]] = {}
        self._fired: set[int] = set()
        self._held: dict[int, tuple[int, int]] = {}
        self._labels: dict[str, int] = {}
        self.changes: list[list] = []
        self.arrows: list[list[int]] = []
        self.lengths: dict[int, list[list[int]]] = {entry.priority: [] for entry in system.objects}
        self.free: dict[int, list[list[int]]] = {pool: [] for pool in range(1, len(system.pools) + 1)}
        self._blocks = dict(enumerate((pool.blocks for pool in system.pools), 1))
        self.longest: Counter[int] = Counter()
        self.fewest = dict(self._blocks)
        self.given: Counter[int] = Counter()
        self.returned: Counter[int] = Counter()

    @property
    def labels(self) -> list[str]:
        """The events that entries and blocks have, as `changes` and steps number them."""
        return list(self._labels)

    def left_in(self, priority: int) -> int:
        return len(self._queues[priority])

    def event_of(self, pool: int, block: int) -> str:
        """The event of an entry as `NAME(1, 2)`, by its first two numbers."""
        return self._names.event(block) if pool == 0 else self._events.get((pool, block), "?")

    def label_of(self, pool: int, block: int) -> int:
        """The number of an entry's event, by its first two numbers."""
        return self._labels.setdefault(self.event_of(pool, block), len(self._labels))

    def event_told(self, lane: int, record: Record) -> str:
        """The event of the entry that a record has, of the block that it gets, or of the reference that was made for a post that
        is refused; nothing where it has none. Asked right after the record was taken."""
        if record.word == "new":
            return self.event_of(record.numbers[1], record.numbers[3])
        if record.word == "full" and lane in self._held:
            return self.event_of(*self._held[lane])
        place = ENTRY_AT.get(record.word)
        return self.event_of(*record.numbers[place:place + 2]) if place is not None else ""

    def tell(self, index: int, lane: int, record: Record) -> None:
        """Takes the next record."""
        was_fired = lane in self._fired
        self._fired.discard(lane)
        if record.word != "full":
            self._held.pop(lane, None)
        match record.word:
            case "post":
                self._post(index, lane, record.numbers, TIME_EVENT if was_fired else POST)
            case "lifo":
                priority, *_, pool, block, reference = record.numbers
                self._queues[priority].appendleft(_Queued(index, index, LAST_IN))
                self._queued("front", index, priority, (pool, block, reference))
            case "took":
                self._took(index, record.numbers[0])
            case "new":
                self._new(index, record.numbers)
            case "back":
                self._back(index, record.numbers)
            case "inc":
                self._held[lane] = record.numbers[1], record.numbers[2]
                self.changes.append(["made", index, *record.numbers[1:4]])
            case "full" if lane in self._held:
                self.changes.append(["refused", index, record.numbers[0], self.label_of(*self._held[lane])])
            case "dec":
                _, pool, block, _, dropped = record.numbers
                self.changes.append(["dropped", index, pool, block, dropped])
            case "pub":
                priority, _, _, members = record.numbers
                self._publications[lane, priority] = (index, {bit + 1 for bit in range(32) if members >> bit & 1})
            case "sub" | "unsub":
                priority, signal, _ = record.numbers
                self.changes.append(["joined" if record.word == "sub" else "left", index, signal, priority])
            case "arm" | "disarm" | "rearm" | "tick" | "fire":
                self._timer(index, lane, record)

    def _post(self, index: int, lane: int, numbers: tuple[int, ...], kind: int) -> None:
        poster, priority = numbers[:2]
        origin = index
        publication = self._publications.get((lane, poster))
        if publication and priority in publication[1]:
            origin, kind = publication[0], PUBLICATION
            publication[1].remove(priority)
        self._queues[priority].append(_Queued(origin, index, kind))
        self._queued("queued", index, priority, numbers[5:8])

    def _queued(self, word: str, index: int, priority: int, entry: tuple[int, ...]) -> None:
        self.changes.append([word, index, priority, self.label_of(*entry[:2]), *entry])
        self._length(index, priority)

    def _took(self, index: int, priority: int) -> None:
        queue = self._queues[priority]
        if queue:
            entry = queue.popleft()
            self.arrows.append([entry.origin, entry.post, index, entry.kind])
        self.changes.append(["taken", index, priority])
        self._length(index, priority)

    def _length(self, index: int, priority: int) -> None:
        length = len(self._queues[priority])
        self.longest[priority] = max(self.longest[priority], length)
        if priority in self.lengths:
            self.lengths[priority].append([index, length])

    def _new(self, index: int, numbers: tuple[int, ...]) -> None:
        _, pool, _, block, _, signal, *params = numbers
        self._events[pool, block] = self._names.event(signal, params)
        self.given[pool] += 1
        self.changes.append(["given", index, pool, block, self.label_of(pool, block)])
        self._free(index, pool)

    def _back(self, index: int, numbers: tuple[int, ...]) -> None:
        _, pool, _, block, _ = numbers
        self.returned[pool] += 1
        self.changes.append(["returned", index, pool, block])
        self._free(index, pool)

    def _free(self, index: int, pool: int) -> None:
        if pool in self.free:
            free = self._blocks[pool] - self.given[pool] + self.returned[pool]
            self.fewest[pool] = min(self.fewest[pool], free)
            self.free[pool].append([index, free])

    def _timer(self, index: int, lane: int, record: Record) -> None:
        timer = record.numbers[1]
        counter = 0 if record.word == "disarm" else record.numbers[4 if record.word == "rearm" else 3]
        self.changes.append(["counter", index, timer, counter])
        if record.word == "fire":
            self._fired.add(lane)
