"""What each numbered word keeps (docs/DEFINITIONS.md, "Lanes and words"): which operation is allowed in its turn, and what may be shown.

A law is asked record by record, and answers in words what is wrong, or nothing. It is a second reading of those definitions, for who
looks for the place of a verdict. Whether a journal is lawful says `qp check` alone.
"""

from collections.abc import Iterable

from .journal import Record

Entry = tuple[int, ...]


class Law:
    """A word's law. `wrong` is asked before `after`, which takes an operation as it is stated."""

    def wrong(self, record: Record) -> str:
        """Why the operation isn't allowed now."""
        return ""

    def after(self, record: Record) -> None:
        """Takes an operation."""

    def misstated(self, record: Record) -> str:
        """Why the record, which shows the word, doesn't say what it holds now."""
        return ""

    def held(self) -> str:
        """What the word holds now."""
        return ""


class FreeBlocks(Law):
    """A pool: `new` takes the least free block, `back` puts in one that isn't free."""

    def __init__(self, blocks: int):
        self._blocks = blocks
        self._free = set(range(blocks))

    def wrong(self, record: Record) -> str:
        block = record.numbers[3]
        if record.word == "back":
            if block >= self._blocks:
                return f"the pool has no block {block}"
            return f"block {block} is free already" if block in self._free else ""
        if not self._free:
            return "no block is free"
        return "" if block == min(self._free) else f"block {block} isn't the least free one, which is {min(self._free)}"

    def after(self, record: Record) -> None:
        (self._free.discard if record.word == "new" else self._free.add)(record.numbers[3])

    def misstated(self, record: Record) -> str:
        stated = record.numbers[3] if record.word == "short" else record.numbers[4]
        if stated != len(self._free):
            return f"{len(self._free)} blocks are free, not {stated}"
        most = record.numbers[4] if record.word == "short" else 0
        return f"{stated} blocks are free, which is more than {most}" if stated > most else ""

    def held(self) -> str:
        return f"free: {_list(sorted(self._free))}"


class References(Law):
    """A block's references: `inc` makes one, `dec` drops one that stands."""

    def __init__(self) -> None:
        self.standing: list[int] = []

    def wrong(self, record: Record) -> str:
        if record.word == "inc" or record.numbers[4] in self.standing:
            return ""
        return f"reference {record.numbers[4]} doesn't stand"

    def after(self, record: Record) -> None:
        if record.word == "inc":
            self.standing.append(record.numbers[3])
        elif record.numbers[4] in self.standing:
            self.standing.remove(record.numbers[4])

    def held(self) -> str:
        return f"references: {_list(self.standing)}"


class Line(Law):
    """A queue: a list of entries, with one place more than its ring."""

    def __init__(self, ring: int):
        self._ring = ring
        self._entries: list[Entry] = []
        self._counts = [0, 0, 0]

    def _stated(self, record: Record) -> list[int]:
        at = {"took": 1, "nil": 1, "lifo": 1, "assert": 3}.get(record.word, 2)
        return list(record.numbers[at:at + 3])

    def wrong(self, record: Record) -> str:
        expected = list(self._counts)
        expected[("post", "lifo", "took").index(record.word)] += 1
        if self._stated(record) != expected:
            return f"the counts are {_counts(expected)} behind it"
        if record.word != "took":
            return "the queue is full" if len(self._entries) > self._ring else ""
        if not self._entries:
            return "the queue is empty"
        return "" if self._entries[0] == record.numbers[-3:] else f"the first entry is {_list(self._entries[0])}"

    def after(self, record: Record) -> None:
        entry = record.numbers[-3:]
        if record.word == "post":
            self._entries.append(entry)
        elif record.word == "lifo":
            self._entries.insert(0, entry)
        else:
            self._entries[:1] = []
        self._counts[("post", "lifo", "took").index(record.word)] += 1

    def misstated(self, record: Record) -> str:
        stated = self._stated(record)
        if stated != self._counts:
            return f"the counts are {_counts(self._counts)}"
        length = max(0, stated[0] + stated[1] - stated[2])
        free = max(0, self._ring + 1 - length)
        if record.word == "nil":
            return f"the queue has {length} entries" if length else ""
        if record.word == "full":
            margin = record.numbers[5]
            return f"{free} entries are free, which is more than the margin {margin}" if free > margin else ""
        if record.word == "assert":
            return f"{free} entries are free" if length != self._ring + 1 else ""
        return ""

    def held(self) -> str:
        return f"entries: {_list(' '.join(map(str, entry)) for entry in self._entries)}"


class Subscribers(Law):
    """A signal's set."""

    def __init__(self) -> None:
        self._members: set[int] = set()

    def wrong(self, record: Record) -> str:
        priority = record.numbers[0]
        if record.word == "sub":
            return f"object {priority} subscribes already" if priority in self._members else ""
        return "" if priority in self._members else f"object {priority} doesn't subscribe"

    def after(self, record: Record) -> None:
        (self._members.add if record.word == "sub" else self._members.discard)(record.numbers[0])

    def misstated(self, record: Record) -> str:
        if record.word != "pub":
            return ""
        bits = sum(1 << priority - 1 for priority in self._members if priority)
        return "" if record.numbers[3] == bits else f"the set is {bits}"

    def held(self) -> str:
        return f"subscribers: {_list(sorted(self._members))}"


class TimeEvent(Law):
    """A time event's counter and interval."""

    def __init__(self) -> None:
        self._counter, self._interval = 0, 0

    def wrong(self, record: Record) -> str:
        stated = record.numbers[3]
        match record.word:
            case "arm":
                return f"it is armed already, with the counter {self._counter}" if self._counter else ""
            case "disarm" | "rearm":
                if stated == self._counter and (stated or record.word == "rearm"):
                    return ""
            case "tick":
                if self._counter == stated + 1 and stated:
                    return ""
            case "fire":
                if self._counter == 1 and stated == self._interval:
                    return ""
        return f"the counter is {self._counter}, the interval {self._interval}"

    def after(self, record: Record) -> None:
        self._counter = 0 if record.word == "disarm" else record.numbers[4 if record.word == "rearm" else 3]
        if record.word == "arm":
            self._interval = record.numbers[4]

    def misstated(self, record: Record) -> str:
        stated = 0 if record.word == "idle" else record.numbers[4]
        if stated == self._counter and (record.word == "idle") == (stated == 0):
            return ""
        return f"the counter is {self._counter}"

    def held(self) -> str:
        return f"counter: {self._counter}, interval: {self._interval}"


def _list(values: Iterable[object]) -> str:
    return ", ".join(map(str, values)) or "none"


def _counts(counts: list[int]) -> str:
    return f"{counts[0]} first-in posts, {counts[1]} last-in posts and {counts[2]} takes"
