"""Lives of blocks, from `new` to `back`, and the names that a journal has for them.

A journal's pool gives out the least free block; a framework's gives out which it will, often the one that came back last.
So a block is renamed as it is given out: its name is the least that is free, until it comes back. The operations on a
name's word are those of its lives one after another.
"""

from bisect import bisect_right
from collections import defaultdict
from dataclasses import dataclass
from heapq import heappop, heappush

from .records import Raw

Block = tuple[int, int]


@dataclass
class Life:
    """A life: its real block and its name, the number of the real block's word at its begin, and of the name's."""

    pool: int
    block: int
    name: int
    signal: int
    real_from: int
    length: int = 0
    name_from: int = 0
    params: tuple[int, ...] | None = None

    def number(self, real: int) -> int:
        """An operation's number on the name's word, by that on the real block's."""
        return self.name_from + real - self.real_from


class _Lives:
    """The lives of one real block by the number at which each begins; of two with the same number the later one counts."""

    def __init__(self) -> None:
        self._begins: list[int] = []
        self._lives: list[Life] = []

    def add(self, life: Life) -> None:
        at = bisect_right(self._begins, life.real_from)
        self._begins.insert(at, life.real_from)
        self._lives.insert(at, life)

    def at(self, number: int) -> Life | None:
        at = bisect_right(self._begins, number)
        return self._lives[at - 1] if at else None


class _Names:
    """The names of one pool's blocks."""

    def __init__(self) -> None:
        self._most = 0
        self._free: list[int] = []

    def least_free(self) -> int:
        """Gives out the least name that is free."""
        if self._free:
            return heappop(self._free)
        self._most += 1
        return self._most - 1

    def give_back(self, name: int) -> None:
        heappush(self._free, name)


class Blocks:
    """All lives of a trace."""

    def __init__(self, lanes: dict[int, list[Raw]]):
        self._lives: dict[Block, _Lives] = defaultdict(_Lives)
        self._of_new: dict[tuple[int, int], Life] = {}
        self._of_back: dict[tuple[int, int], Life | None] = {}
        ordered = self._name_blocks(lanes)
        self._measure(lanes)
        self._number(ordered)

    def life(self, block: Block, number: int) -> Life | None:
        """The life in which a real block's word has its operation of this number, or the last one before."""
        return self._lives[block].at(number) if block in self._lives else None

    def of_new(self, pool: int, number: int) -> Life:
        return self._of_new[pool, number]

    def of_back(self, pool: int, number: int) -> Life | None:
        return self._of_back[pool, number]

    def _name_blocks(self, lanes: dict[int, list[Raw]]) -> list[Life]:
        """The lives in their pools' order."""
        found = [raw for lane in lanes.values() for raw in lane if raw.word in ("new", "back")]
        ordered: list[Life] = []
        out: dict[Block, Life] = {}
        names: dict[int, _Names] = defaultdict(_Names)
        for raw in sorted(found, key=lambda raw: (raw.values[0], raw.number)):
            pool, block = raw.values[:2]
            former = out.pop((pool, block), None)
            if raw.word == "back":
                if former:
                    names[pool].give_back(former.name)
                self._of_back[pool, raw.number] = former or self.life((pool, block), raw.shown)
                continue
            name = former.name if former else names[pool].least_free()
            life = Life(pool, block, name, raw.values[2], raw.shown)
            self._lives[pool, block].add(life)
            self._of_new[pool, raw.number] = out[pool, block] = life
            ordered.append(life)
        return ordered

    def _measure(self, lanes: dict[int, list[Raw]]) -> None:
        """How many operations each life has."""
        for lane in lanes.values():
            for raw in lane:
                if raw.word in ("inc", "dec") and (life := self.life(raw.block(), raw.number)):
                    life.length = max(life.length, raw.number + 1 - life.real_from)

    def _number(self, ordered: list[Life]) -> None:
        totals: dict[Block, int] = defaultdict(int)
        for life in ordered:
            life.name_from = totals[life.pool, life.name]
            totals[life.pool, life.name] += life.length

