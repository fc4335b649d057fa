"""Which word a record draws a number on, or shows (docs/FORMATS.md, section 4)."""

from typing import NamedTuple

from .journal import Record

Word = tuple

#: Records by the word that they name and how: the word's kind, the places of its name, and the place of the number.
#: A queue's number comes of three counts, so only the place of the first is given.
_DRAWN = {
    "took": ("queue", (0,), 1), "post": ("queue", (1,), 2), "lifo": ("queue", (0,), 1),
    "new": ("pool", (1,), 2), "back": ("pool", (1,), 2),
    "inc": ("block", (1, 2), 3), "dec": ("block", (1, 2), 3),
    "sub": ("signal", (1,), 2), "unsub": ("signal", (1,), 2),
    "arm": ("timer", (1,), 2), "disarm": ("timer", (1,), 2), "rearm": ("timer", (1,), 2),
    "tick": ("timer", (1,), 2), "fire": ("timer", (1,), 2),
}
_SHOWN = {
    "nil": ("queue", (0,), 1), "seen": ("queue", (1,), 2), "full": ("queue", (1,), 2),
    "short": ("pool", (1,), 2), "pub": ("signal", (1,), 2), "same": ("signal", (1,), 2), "idle": ("timer", (1,), 2),
}
_ASSERTED = {
    1: ("queue", (2,), 3), 2: ("pool", (2,), 3), 3: ("timer", (2,), 3), 5: ("queue", (2,), 3),
}


class Touch(NamedTuple):
    """A word, and a number of it: the one drawn, or how many operations are shown."""

    word: Word
    number: int
    draws: bool


def touch_of(record: Record) -> Touch | None:
    """What a record does to a word; a note does nothing."""
    draws = record.word in _DRAWN
    rule = _DRAWN.get(record.word) or _SHOWN.get(record.word)
    if record.word == "assert":
        rule = _ASSERTED.get(record.numbers[1])
    if rule is None:
        return None
    kind, names, place = rule
    numbers = record.numbers
    word = (kind, *(numbers[name] for name in names))
    if kind != "queue":
        return Touch(word, numbers[place], draws)
    count = sum(numbers[place:place + 3])
    return Touch(word, count - 1 if draws else count, draws)
