"""The records of a buffer, out of its bytes."""

from typing import NamedTuple

from qpviewer.faults import Fault

from .pieces import LANES, ONE, WHOS

#: Objects are 1 to 32 by priority; behind them are the sources from 1.
LAST_OBJECT = 32
UNNUMBERED = -1

#: Each kind of record: its word, how many numbers it has, how many numbers of words stand behind them.
KINDS: dict[int, tuple[str, int, int]] = {
    4: ("begin", 0, 0), 5: ("took", 2, 1), 6: ("nil", 0, 1), 7: ("seen", 1, 1), 8: ("run", 2, 0), 9: ("none", 0, 0),
    10: ("exit", 1, 0), 11: ("enter", 1, 0), 12: ("init", 1, 0), 13: ("say", 1, 0), 14: ("done", 0, 0),
    15: ("new", 3, 2), 16: ("short", 3, 1), 17: ("inc", 2, 1), 18: ("dec", 2, 1), 19: ("back", 2, 2),
    20: ("post", 3, 1), 21: ("lifo", 2, 1), 22: ("full", 2, 1), 23: ("pub", 2, 1), 24: ("lock", 1, 0),
    25: ("unlock", 1, 0), 26: ("defer", 2, 0), 27: ("nodefer", 0, 0), 28: ("recall", 2, 0), 29: ("norecall", 0, 0),
    30: ("flush", 2, 0), 31: ("sub", 1, 1), 32: ("unsub", 1, 1), 33: ("same", 1, 1), 34: ("arm", 3, 1),
    35: ("disarm", 2, 1), 36: ("rearm", 3, 1), 37: ("idle", 1, 1), 38: ("tick", 2, 1), 39: ("fire", 2, 1),
    40: ("stim", -1, 0), 41: ("settle", 0, 0), 42: ("assert", -1, 0), 47: ("no_init", 0, 0), 48: ("event", -1, 0),
    49: ("handled", 1, 0),
}
#: The numbers behind the first one: of `stim` by its call, of `assert` by its code.
STIM_POST, STIM_PUBLISH, STIM_TICK = 1, 2, 3
_CALLS = {STIM_POST: (4, 0), STIM_PUBLISH: (2, 0), STIM_TICK: (1, 0)}
_CODES = {1: (1, 1), 2: (2, 1), 3: (2, 1), 4: (3, 0), 5: (1, 1)}
#: How it begins what is wrong where bytes are missing behind the last ones.
CUT = "the bytes end within record"
_CHOICES = {"stim": _CALLS, "assert": _CODES}


class Raw(NamedTuple):
    """A record as it was made: who worked, its word, its numbers, and which operation it is, or how many are shown.

    `new` and `back` also show a number of their block.
    """

    who: int
    word: str
    values: tuple[int, ...]
    number: int = UNNUMBERED
    shown: int = UNNUMBERED

    def block(self, at: int = 0) -> tuple[int, int]:
        """The pool and the block, or 0 and the signal, that stand at this place of its numbers."""
        return self.values[at], self.values[at + 1]


class Read(NamedTuple):
    """What a buffer has: its records up to the first gap, behind which no numbers can be trusted, and what is wrong there."""

    records: list[Raw]
    wrong: str


def who_is(who: int) -> str:
    return f"object {who}" if who <= LAST_OBJECT else f"source {who - LAST_OBJECT}"


def buffer_name(form: int, key: int) -> str:
    return "the buffer" if form == ONE else who_is(key)


def read_records(form: int, key: int, data: bytes) -> Read:
    """The records of a buffer. Raises `Fault` where its bytes aren't records."""
    found: list[Raw] = []
    at = 0
    try:
        while at < len(data):
            if gap := (data[at] - len(found)) % 256:
                _record(form, key, data, at)
                return Read(found, f"behind record {len(found)} at least {gap} are missing; what follows is left out")
            record, at = _record(form, key, data, at)
            found.append(record)
    except IndexError:
        return Read(found, f"{CUT} {len(found) + 1}")
    return Read(found, "")


def _record(form: int, key: int, data: bytes, start: int) -> tuple[Raw, int]:
    """The record that begins here, and where the next one does. Raises `IndexError` where the bytes end within it."""
    kind = data[start + 1]
    if form == ONE:
        who, at = data[start + 2], start + 3
    else:
        who, at = key, start + 2
    if kind not in KINDS or not 0 < who < WHOS:
        raise Fault("", f"{buffer_name(form, key)}: byte {start} of its records begins none: kind {kind}, who {who}")
    word, count, words = KINDS[kind]
    if count < 0:
        return _odd_record(form, who, word, data, at)
    values, at = _numbers(data, at, count)
    if word == "say":
        values = (values[0] >> 1 ^ -(values[0] & 1),)
    if form == LANES and words:
        numbers, at = _numbers(data, at, words)
        return Raw(who, word, values, *numbers), at
    return Raw(who, word, values), at


def _odd_record(form: int, who: int, word: str, data: bytes, at: int) -> tuple[Raw, int]:
    """One whose first numbers say how many follow."""
    if word == "event":
        (pool, block, count), at = _numbers(data, at, 3)
        params, at = _numbers(data, at, count)
        return Raw(who, word, (pool, block, *params)), at
    (choice,), at = _numbers(data, at, 1)
    if choice not in _CHOICES[word]:
        raise Fault("", f"{buffer_name(form, who)}: `{word}` of an unknown kind {choice}")
    count, words = _CHOICES[word][choice]
    values, at = _numbers(data, at, count)
    numbers, at = _numbers(data, at, words if form == LANES else 0)
    return Raw(who, word, (choice, *values), *numbers), at


def _numbers(data: bytes, at: int, count: int) -> tuple[tuple[int, ...], int]:
    """So many numbers, in groups of 7 bits, and where the next byte stands."""
    found: list[int] = []
    for _ in range(count):
        value = data[at]
        at += 1
        if value >= 0x80:
            value, at = _long(data, at, value & 0x7F)
        found.append(value)
    return tuple(found), at


def _long(data: bytes, at: int, value: int) -> tuple[int, int]:
    shift = 7
    while True:
        byte = data[at]
        at += 1
        value |= (byte & 0x7F) << shift
        if byte < 0x80:
            return value, at
        shift += 7
