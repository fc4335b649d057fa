"""What a journal names and its system doesn't have: objects, states, rows, signals, pools, blocks, time events."""

from collections.abc import Iterable
from typing import NamedTuple

from .journal import Record
from .system import FIRST_SIGNAL
from .system_parts import Object, State, System
from .words_told import ENTRY_AT

#: Where a record names these by their number.
_OBJECT_AT = {"seen": 1, "post": 1, "full": 1}
_SIGNAL_AT = {"new": 5, "pub": 1, "sub": 1, "unsub": 1, "same": 1}
_BLOCK_AT = {"new": (1, 3), "back": (1, 3), "inc": (1, 2), "dec": (1, 2)}
_TIMERS = {"arm", "disarm", "rearm", "idle", "tick", "fire"}
_STATES = {"run", "exit", "enter", "init"}


class Foreign(NamedTuple):
    """The place in order of a record, and what it names that the system doesn't have."""

    place: int
    what: str


def first_foreign(records: Iterable[Record], system: System) -> Foreign | None:
    """The first record that names what the system doesn't have."""
    objects = {entry.priority: entry for entry in system.objects}
    found = (_foreign(record, system, objects) for record in records)
    return next((Foreign(index, what) for index, what in enumerate(found) if what), None)


def _foreign(record: Record, system: System, objects: dict[int, Object]) -> str | None:
    """What a record names that the system doesn't have, in words."""
    numbers, word = record.numbers, record.word
    for priority in {numbers[0], numbers[_OBJECT_AT.get(word, 0)]} - {0}:
        if priority not in objects:
            return f"object {priority}"
    if word in _STATES and numbers[0] in objects:
        return _foreign_state(numbers, word, objects[numbers[0]].name, objects[numbers[0]].chart.states)
    if word in _SIGNAL_AT and not _has_signal(numbers[_SIGNAL_AT[word]], system):
        return f"signal {numbers[_SIGNAL_AT[word]]}"
    if word in _TIMERS and not 1 <= numbers[1] <= len(system.time_events):
        return f"time event {numbers[1]}"
    if word in ENTRY_AT:
        at = ENTRY_AT[word]
        return _foreign_entry(numbers[at], numbers[at + 1], system)
    if word in _BLOCK_AT:
        pool, block = _BLOCK_AT[word]
        return _foreign_block(numbers[pool], numbers[block], system)
    return None


def _has_signal(number: int, system: System) -> bool:
    return FIRST_SIGNAL <= number < FIRST_SIGNAL + len(system.signals)


def _foreign_state(numbers: tuple[int, ...], word: str, owner: str, states: list[State]) -> str | None:
    if not 1 <= numbers[1] <= len(states):
        return f"state {numbers[1]} of {owner}"
    state = states[numbers[1] - 1]
    if word == "run" and not 1 <= numbers[2] <= len(state.rows):
        return f"row {numbers[2]} of {owner}'s state {state.name}"
    return None


def _foreign_entry(pool: int, block: int, system: System) -> str | None:
    if pool == 0:
        return None if _has_signal(block, system) else f"signal {block}"
    return _foreign_block(pool, block, system)


def _foreign_block(pool: int, block: int, system: System) -> str | None:
    if not 1 <= pool <= len(system.pools):
        return f"pool {pool}"
    return None if block < system.pools[pool - 1].blocks else f"block {block} of pool {pool}"
