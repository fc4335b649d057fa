"""Who holds the blocks of a pool at one moment: each reference with the queue, the deferred list or the step that it lies in."""

from collections import defaultdict
from collections.abc import Iterable

from .journal import Record
from .naming import Names

#: Where the block and the reference of an entry begin in a record's numbers.
_ENTRY = {"took": 4, "post": 5, "lifo": 4, "defer": 1}

Block = tuple[int, int]


class Holders:
    """Walks the records in order, and keeps for each block its event and where its references lie."""

    def __init__(self, names: Names):
        self._names = names
        self._events: dict[Block, str] = {}
        self._places: dict[Block, dict[int, str]] = defaultdict(dict)

    def tell(self, records: Iterable[Record]) -> None:
        """Takes the next records."""
        for record in records:
            self._tell(record)

    def of_pool(self, pool: int) -> list[str]:
        """What each block of a pool that is given out holds, and where, in the order of the blocks."""
        found = []
        for block, places in sorted(self._places.items()):
            if block[0] == pool and block in self._events:
                where = ", ".join(dict.fromkeys(places.values())) or "a call that isn't finished"
                found.append(f"block {pool}.{block[1]} {self._events[block]}: {where}")
        return found

    def _tell(self, record: Record) -> None:
        numbers = record.numbers
        match record.word:
            case "new":
                given = (numbers[1], numbers[3])
                self._events[given] = self._names.event(numbers[5], numbers[6:])
                self._places[given] = {}
            case "back":
                self._events.pop((numbers[1], numbers[3]), None)
                self._places.pop((numbers[1], numbers[3]), None)
            case "inc":
                self._places[numbers[1], numbers[2]][numbers[3]] = f"in a call of {self._owner(numbers[0])}"
            case "dec":
                self._places[numbers[1], numbers[2]].pop(numbers[4], None)
            case "took" | "post" | "lifo" | "defer":
                at = _ENTRY[record.word]
                pool, block, reference = numbers[at:at + 3]
                if pool:
                    self._places[pool, block][reference] = self._place(record.word, numbers)

    def _place(self, word: str, numbers: tuple[int, ...]) -> str:
        match word:
            case "took":
                return f"in a step of {self._owner(numbers[0])}"
            case "defer":
                return f"deferred by {self._owner(numbers[0])}"
            case "post":
                return f"in the queue of {self._owner(numbers[1])}"
            case _:
                return f"in the queue of {self._owner(numbers[0])}"

    def _owner(self, number: int) -> str:
        return self._names.object(number) if number else "a source"
