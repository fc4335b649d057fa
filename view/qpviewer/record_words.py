"""Records in words, with the system's names. The page's script says the same (assets/told.js)."""

from collections.abc import Callable

from .journal import Record
from .naming import Names, signed


def plural(number: int, one: str) -> str:
    """So many things: `1 tick`, `2 ticks`, `2 entries`."""
    many = f"{one[:-1]}ies" if one.endswith("y") else f"{one}s"
    return f"{number} {one if number == 1 else many}"


class RecordWords:
    """What each record says, without who says it."""

    def __init__(self, names: Names):
        self.names = names

    def words(self, record: Record, event: str, stimulus: str, is_last_drop: bool = False) -> str:
        """A record's words; `event` is the one that it tells of, `stimulus` the one that a `stim` begins, and `is_last_drop` says of a `dec`
        that no reference to its block is left."""
        if is_last_drop:
            return f"drops the last reference of block {record.numbers[1]}.{record.numbers[2]}"
        if record.word == "stim":
            return f"stimulus {record.numbers[1]}: {stimulus}"
        if record.word in _OF_EVENT:
            return _OF_EVENT[record.word].format(event)
        if record.word in _FIXED:
            return _FIXED[record.word]
        return _WORDS[record.word](self, record.numbers, event)

    def stop(self, record: Record) -> str:
        """Why a run ended at an `assert`, a `spent` or a `spill`."""
        return self.words(record, "", "")

    def _seen(self, numbers: tuple[int, ...], _event: str) -> str:
        _, queue, first_in, last_in, taken = numbers
        length = first_in + last_in - taken
        return f"sees {plural(length, 'entry') if length > 0 else 'no entry'} for {self.names.object(queue)}"

    def _pub(self, numbers: tuple[int, ...], _event: str) -> str:
        members = [self.names.object(bit + 1) for bit in range(31, -1, -1) if numbers[3] >> bit & 1]
        return f"publishes {self.names.signal(numbers[1])} to {', '.join(members) or 'nobody'}"

    def _assert(self, numbers: tuple[int, ...], _event: str) -> str:
        match numbers[1:]:
            case (1, queue, *_):
                return f"asserts: the queue of {self.names.object(queue)} is full"
            case (2, pool, *_):
                return f"asserts: pool {pool} has no free block"
            case (3, timer, *_):
                return f"asserts: {self.names.timer(timer)} is armed already"
            case (4, timer, ticks, interval):
                return f"asserts: {self.names.timer(timer)} can't have {signed(ticks)} ticks and interval {signed(interval)}"
            case _:
                return "asserts: its own queue is full, so nothing goes in front"


#: Words that need the event alone, or nothing.
_OF_EVENT = {
    "took": "takes {}", "lifo": "posts {} to itself, in front", "defer": "defers {}", "recall": "recalls {}",
    "flush": "drops the deferred {}",
}
_FIXED = {
    "begin": "starts", "nil": "finds its queue empty", "none": "no state handles it", "done": "is done",
    "norecall": "has nothing to recall", "settle": "settles", "spent": "has spent its budget",
}
#: Words that need names or numbers, each of the records' numbers and the event.
_WORDS: dict[str, Callable[[RecordWords, tuple[int, ...], str], str]] = {
    "seen": RecordWords._seen,
    "pub": RecordWords._pub,
    "assert": RecordWords._assert,
    "run": lambda told, n, _: f"{told.names.state(n[0], n[1])} handles it by row {n[2]}",
    "exit": lambda told, n, _: f"exits {told.names.state(n[0], n[1])}",
    "enter": lambda told, n, _: f"enters {told.names.state(n[0], n[1])}",
    "init": lambda told, n, _: f"takes the initial transition of {told.names.state(n[0], n[1])}",
    "say": lambda told, n, _: f"says {signed(n[1])}",
    "new": lambda told, n, event: f"gets block {n[1]}.{n[3]} for {event}",
    "short": lambda told, n, _: f"is refused: pool {n[1]} has {n[3]} free, reserve {n[4]}",
    "inc": lambda told, n, _: f"makes reference {n[3]} of block {n[1]}.{n[2]}",
    "dec": lambda told, n, _: f"drops reference {n[4]} of block {n[1]}.{n[2]}",
    "back": lambda told, n, _: f"gives block {n[1]}.{n[3]} back",
    "nodefer": lambda told, n, _: f"can't defer: {'its deferred list is full' if told.names.can_defer(n[0]) else 'it has no deferred list'}",
    "post": lambda told, n, event: f"posts {event} to {told.names.object(n[1])}",
    "full": lambda told, n, event: f"posts {event}, which is refused by the queue of {told.names.object(n[1])}, margin {n[5]}",
    "lock": lambda told, n, _: f"raises the ceiling to {n[1]}",
    "unlock": lambda told, n, _: f"puts the ceiling back to {n[1]}",
    "sub": lambda told, n, _: f"subscribes to {told.names.signal(n[1])}",
    "unsub": lambda told, n, _: f"unsubscribes from {told.names.signal(n[1])}",
    "same": lambda told, n, _: f"changes no subscription of {told.names.signal(n[1])}",
    "arm": lambda told, n, _: f"arms {told.names.timer(n[1])} with {plural(n[3], 'tick')}, interval {n[4]}",
    "disarm": lambda told, n, _: f"disarms {told.names.timer(n[1])}, which had {plural(n[3], 'tick')} left",
    "rearm": lambda told, n, _: f"rearms {told.names.timer(n[1])}, from {n[3]} to {plural(n[4], 'tick')}",
    "idle": lambda told, n, _: f"finds {told.names.timer(n[1])} disarmed",
    "tick": lambda told, n, _: f"counts {told.names.timer(n[1])} down to {n[3]}",
    "fire": lambda told, n, _: f"lets {told.names.timer(n[1])} fire",
    "spill": lambda told, n, _: f"stops: the lane is full with {n[1]} records",
    "look": lambda told, n, _: f"begins look {n[1]}, with floor {n[2]}",
    "rest": lambda told, n, _: f"rests behind look {n[1]}",
}
