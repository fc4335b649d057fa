"""Queues: the entry of each take, and how many posts and takes there were."""

from bisect import bisect_left
from collections import defaultdict, deque
from typing import NamedTuple

from .blocks import Blocks, Life
from .records import Raw

Place = tuple[int, int]


class Entry(NamedTuple):
    """An event in a queue: its pool, its real block or its signal, its life, and its reference on the name's word."""

    pool: int
    what: int
    life: Life | None = None
    reference: int = 0

    def numbers(self) -> tuple[int, int, int]:
        if self.pool == 0:
            return 0, self.what, 0
        return self.pool, self.life.name if self.life else self.what, self.reference

    @property
    def signal(self) -> int:
        if self.pool == 0:
            return self.what
        return self.life.signal if self.life else 0


def entries_of(lanes: dict[int, list[Raw]], blocks: Blocks) -> dict[Place, Entry]:
    """The entries that posts lay and objects defer, by who and place: the reference is the last that the lane made."""
    found: dict[Place, Entry] = {}
    for who, lane in lanes.items():
        made: dict[tuple[int, int], Entry] = {}
        events: dict[tuple[int, int], tuple[int, ...]] = {}
        for at, raw in enumerate(lane):
            if raw.word == "event":
                events[raw.block()] = raw.values[2:]
            elif raw.word == "inc":
                block = raw.block()
                life = blocks.life(block, raw.number)
                if life and block in events:
                    life.params = events.pop(block)
                made[block] = Entry(*block, life, life.number(raw.number) if life else raw.number)
            elif raw.word in ("post", "lifo", "defer"):
                pool, what = raw.values[-2:]
                found[who, at] = Entry(0, what) if pool == 0 else made.get((pool, what), Entry(pool, what))
    return found


def take_out(line: deque[Entry], pool: int, what: int) -> Entry:
    """Takes the first entry of this event out of a line; where none stands, an entry of its own."""
    for at, entry in enumerate(line):
        if (entry.pool, entry.what) == (pool, what):
            del line[at]
            return entry
    return Entry(pool, what)


class Queues:
    """All queues of a trace."""

    def __init__(self, lanes: dict[int, list[Raw]], entries: dict[Place, Entry]):
        self.taken: dict[Place, Entry] = {}
        self._lifos: dict[int, list[int]] = defaultdict(list)
        self._takes: dict[int, list[int]] = defaultdict(list)
        operations: dict[int, list[tuple[int, Place, Raw]]] = defaultdict(list)
        for who, lane in lanes.items():
            for at, raw in enumerate(lane):
                if raw.word in ("post", "lifo", "took"):
                    queue = raw.values[0] if raw.word == "post" else who
                    operations[queue].append((raw.number, (who, at), raw))
        for queue, found in operations.items():
            self._fold(queue, sorted(found, key=lambda one: one[0]), entries)

    def counts(self, queue: int, number: int) -> tuple[int, int, int]:
        """First-in posts, last-in posts and takes among a queue's first operations, so many."""
        lifos = bisect_left(self._lifos[queue], number)
        takes = bisect_left(self._takes[queue], number)
        return number - lifos - takes, lifos, takes

    def _fold(self, queue: int, operations: list[tuple[int, Place, Raw]], entries: dict[Place, Entry]) -> None:
        line: deque[Entry] = deque()
        for number, place, raw in operations:
            if raw.word == "post":
                line.append(entries[place])
            elif raw.word == "lifo":
                line.appendleft(entries[place])
                self._lifos[queue].append(number)
            else:
                self.taken[place] = take_out(line, *raw.values)
                self._takes[queue].append(number)
