"""Time events: where each isn't armed, by how many operations it had."""

from bisect import bisect_left
from collections import defaultdict

from .records import Raw

#: Where a record states the counter behind it; `disarm` leaves 0.
_COUNTER = {"arm": 1, "rearm": 2, "tick": 1, "fire": 1}


class Timers:
    """The time events of a trace."""

    def __init__(self, lanes: dict[int, list[Raw]]):
        counters: dict[int, dict[int, int]] = defaultdict(lambda: {0: 0})
        for lane in lanes.values():
            for raw in lane:
                if raw.word in _COUNTER:
                    counters[raw.values[0]][raw.number + 1] = raw.values[_COUNTER[raw.word]]
                elif raw.word == "disarm":
                    counters[raw.values[0]][raw.number + 1] = 0
        self._idle = {timer: sorted(number for number, counter in of.items() if counter == 0) for timer, of in counters.items()}

    def idle_between(self, timer: int, least: int, most: int) -> int | None:
        """The first number of operations in this range after which the time event isn't armed."""
        numbers = self._idle.get(timer, [0])
        at = bisect_left(numbers, least)
        return numbers[at] if at < len(numbers) and numbers[at] <= most else None
