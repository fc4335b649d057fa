"""Tests of states in a cases file: what must never hold, at each quiet end, or at some place of some order.

A test compares what a state has: `OBJECT.STATE` (that state or one within it), `OBJECT.VARIABLE`, `deferred OBJECT`, `free OBJECT` and `free pool N`
with a number, `assertion` and `refused`, joined by `&&`, `||`, `!` and parentheses.
"""

import operator
import re
from collections.abc import Callable
from dataclasses import dataclass

from qpviewer.system_parts import Object, State, System

from ..explore.calls import Told
from ..explore.machine import Machine
from ..explore.spot import ASSERTED, Lane, Spot

_TOKEN = re.compile(r"\s*(?:(&&|\|\||==|!=|<=|>=|[!()<>.])|(-?[0-9]+)|([A-Za-z_][A-Za-z_0-9]*))")
_COMPARES: dict[str, Callable[[int, int], bool]] = {
    "==": operator.eq, "!=": operator.ne, "<": operator.lt, "<=": operator.le, ">": operator.gt, ">=": operator.ge,
}
_REFUSALS = {"full", "short", "nodefer"}


class BadProperty(Exception):
    """A text that is no test, or that names what the system doesn't have."""


@dataclass(frozen=True)
class Seen:
    """A state, and what the move that led to it told."""

    machine: Machine
    spot: Spot
    told: tuple[Told, ...]


_Test = Callable[[Seen], bool]


@dataclass(frozen=True)
class Property:
    """A test: its text, the places of the objects whose states or variables it names, and whether it holds."""

    text: str
    objects: frozenset[int]
    holds: _Test

    def is_asked(self, seen: Seen) -> bool:
        """Whether each object that it names is between steps, and hasn't asserted."""
        lanes = [seen.spot.lanes[place] for place in self.objects]
        return all(lane.hand is None and lane.stage.word != ASSERTED for lane in lanes)


def read_property(text: str, system: System) -> Property:
    """The test of a text. Raises `BadProperty`."""
    reader = _Reader(text, system)
    test = reader.either()
    if reader.left:
        raise BadProperty(f"{reader.left[0]!r} is left over")
    return Property(text, frozenset(reader.objects), test)


class _Reader:
    """Reads a test, the loosest operator first."""

    def __init__(self, text: str, system: System):
        self._system = system
        self._places = {owner.name: place for place, owner in enumerate(system.objects)}
        self.left = _tokens(text)
        self.objects: set[int] = set()

    def either(self) -> _Test:
        tests = [self._all()]
        while self._take("||"):
            tests.append(self._all())
        return lambda seen: any(test(seen) for test in tests)

    def _all(self) -> _Test:
        tests = [self._one()]
        while self._take("&&"):
            tests.append(self._one())
        return lambda seen: all(test(seen) for test in tests)

    def _one(self) -> _Test:
        if self._take("!"):
            test = self._one()
            return lambda seen: not test(seen)
        if self._take("("):
            test = self.either()
            self._need(")")
            return test
        return self._plain()

    def _plain(self) -> _Test:
        word = self._word()
        if word == "assertion":
            return lambda seen: seen.machine.is_stopped(seen.spot)
        if word == "refused":
            return lambda seen: any(told.word in _REFUSALS for told in seen.told)
        if word == "deferred":
            place = self._object(self._word())
            return self._compared(lambda seen: len(seen.spot.deferred[place]))
        if word == "free":
            return self._free()
        return self._of_object(word)

    def _free(self) -> _Test:
        word = self._word()
        if word == "pool":
            number = self._number()
            if not 1 <= number <= len(self._system.pools):
                raise BadProperty(f"there is no pool {number}")
            return self._compared(lambda seen: seen.spot.free[number - 1])
        place = self._object(word)
        room = self._system.objects[place].queue + 1
        return self._compared(lambda seen: room - len(seen.spot.queues[place]))

    def _of_object(self, name: str) -> _Test:
        place = self._object(name)
        self._need(".")
        member, owner = self._word(), self._system.objects[place]
        self.objects.add(place)
        names = sorted(owner.vars)
        states = [state for state in owner.chart.states if state.name == member]
        if self.left and self.left[0] in _COMPARES:
            if member not in names:
                raise BadProperty(f"{name} has no variable {member}")
            index = names.index(member)
            return self._compared(lambda seen: seen.spot.lanes[place].vars[index])
        if not states:
            raise BadProperty(f"{name} has no state {member}" + (", and its variable has to be compared" if member in names else ""))
        numbers = _within(owner, states[0])
        return lambda seen: _leaf(seen.spot.lanes[place]) in numbers

    def _compared(self, value: Callable[[Seen], int]) -> _Test:
        if not self.left or self.left[0] not in _COMPARES:
            raise BadProperty("a comparison is missing")
        compare, number = _COMPARES[self.left.pop(0)], self._number()
        return lambda seen: compare(value(seen), number)

    def _object(self, name: str) -> int:
        if name not in self._places:
            raise BadProperty(f"there is no object {name}")
        return self._places[name]

    def _take(self, token: str) -> bool:
        if self.left and self.left[0] == token:
            self.left.pop(0)
            return True
        return False

    def _need(self, token: str) -> None:
        if not self._take(token):
            raise BadProperty(f"{token!r} is missing")

    def _word(self) -> str:
        if not self.left or not re.fullmatch("[A-Za-z_][A-Za-z_0-9]*", self.left[0]):
            raise BadProperty("a name is missing")
        return self.left.pop(0)

    def _number(self) -> int:
        if not self.left or not re.fullmatch("-?[0-9]+", self.left[0]):
            raise BadProperty("a number is missing")
        return int(self.left.pop(0))


def _tokens(text: str) -> list[str]:
    tokens, at, end = list[str](), 0, len(text.rstrip())
    while at < end:
        found = _TOKEN.match(text, at)
        if not found:
            raise BadProperty(f"{text[at:].strip()!r} is no part of a test")
        tokens.append(found[0].strip())
        at = found.end()
    if not tokens:
        raise BadProperty("it is empty")
    return tokens


def _leaf(lane: Lane) -> int:
    return lane.leaf


def _within(owner: Object, outer: State) -> frozenset[int]:
    """The numbers of a state and of those within it."""
    def is_within(state: State | None) -> bool:
        while state and state is not outer:
            state = state.parent
        return state is outer

    return frozenset(state.number for state in owner.chart.states if is_within(state))
