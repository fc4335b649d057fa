"""Where an object's course fails (D7): the first record that isn't what its chart makes of its events."""

import contextlib
from bisect import bisect_right
from collections import defaultdict
from functools import lru_cache
from typing import NamedTuple

from .actions import Action, Expr, read_action, read_expression, value_of, wrapped
from .faults import Fault
from .journal import Journal
from .object_places import failure_at, records_by_object
from .shapes import Entry, Group, References, Shapes, Unfit
from .system_parts import Object, Row, State, System
from .tree import main_state, path_of
from .word_places import Failure

_BITS = 2**64


class Event(NamedTuple):
    """An event: its signal's number and its parameters."""

    signal: int
    params: tuple[int, ...] = ()


class _Asserted(Exception):
    """An assertion ends the object's records."""


class Assigned(NamedTuple):
    """A variable's new value, known behind a record that stands at a place of a lane."""

    lane: int
    at: int
    name: str
    value: int


def course_failure(system: System, journal: Journal, owner: Object) -> Failure | None:
    """The first record that isn't what the chart makes of the events; none where its texts can't be read."""
    return Courses(system, journal, References.of(journal)).failure(owner)


class Courses:
    """The courses of a journal's objects. What they share, the records by object and the events of blocks, is read once."""

    def __init__(self, system: System, journal: Journal, references: References):
        self._system, self._journal, self._references = system, journal, references
        self._spots = records_by_object(system, journal)
        self._events = _Events(journal)

    def assignments(self, owner: Object) -> list[Assigned]:
        """The values that an object's variables get, in order, as far as the chart can be followed."""
        course, spots = self._course(owner), self._spots[owner.priority]
        with contextlib.suppress(_Asserted, Fault, KeyError, Unfit):
            course.follow()
        return [Assigned(spots[at - 1].lane, spots[at - 1].at, name, value) for at, name, value in course.assigned]

    def action_that_asserts(self, owner: Object) -> str:
        """The text of the action at which an object's records end with an assertion; nothing where the chart can't be followed up to there."""
        course = self._course(owner)
        try:
            course.follow()
        except _Asserted:
            return course.doing
        except (Fault, KeyError, Unfit):
            return ""
        return ""

    def failure(self, owner: Object) -> Failure | None:
        """The first record that isn't what the chart makes of the events; none where its texts can't be read."""
        spots = self._spots[owner.priority]
        try:
            self._course(owner).follow()
        except _Asserted:
            return None
        except Unfit as unfit:
            return failure_at(spots, unfit) if unfit.at < len(spots) or not self._journal.status else None
        except (Fault, KeyError):
            return None
        return None

    def _course(self, owner: Object) -> "_Course":
        shapes = Shapes(self._spots[owner.priority], self._references, owner.priority)
        return _Course(self._system, owner, shapes, self._events)


@lru_cache(maxsize=None)
def _action(text: str) -> Action:
    return read_action(text)


@lru_cache(maxsize=None)
def _guard(text: str) -> Expr:
    return read_expression(text)


class _Events:
    """The events of blocks, by the references of their lives."""

    def __init__(self, journal: Journal):
        self._lives: dict[tuple[int, int], list[tuple[int, Event]]] = defaultdict(list)
        for lane in journal.lanes:
            for record in lane:
                if record.word == "new":
                    _, pool, _, block, begins, signal, *params = record.numbers
                    self._lives[pool, block].append((begins, Event(signal, tuple(params))))
        for lives in self._lives.values():
            lives.sort()

    def of(self, entry: Entry) -> Event:
        pool, block, reference = entry
        if pool == 0:
            return Event(block)
        lives = self._lives[pool, block]
        begun = bisect_right(lives, reference, key=lambda life: life[0])
        return lives[begun - 1][1] if begun else Event(0)


class _Course:
    """An object on its way through its chart: its leaf, its variables and `ok`."""

    def __init__(self, system: System, owner: Object, shapes: Shapes, events: _Events):
        self._system, self._owner, self._shapes, self._events = system, owner, shapes, events
        self._leaf: State | None = None
        self._vars = dict(owner.vars)
        self._ok = 0
        self._event = Event(0)
        self._now: Entry | None = None
        self.doing = ""
        self.assigned: list[tuple[int, str, int]] = []
        self._timers = {event.timer.name: event.number for event in system.time_events if event.owner is owner}
        self._priorities = {other.name: other.priority for other in system.objects} | {"me": owner.priority}

    def follow(self) -> None:
        """The start, and then a step for each take."""
        chart = self._owner.chart
        self._shapes.take("begin")
        self._do_all(chart.init_do)
        self._enter(path_of(chart.init))
        self._drill(chart.init)
        self._take_done()
        while not self._shapes.is_done:
            head = self._shapes.take("took", "nil", "seen", "spent")
            if head.word == "took":
                self._now = head.numbers[-3:]
                self._event = self._events.of(self._now)
                self._step()
                self._take_done()
                self._shapes.release(self._now)
                self._now = None

    def _take_done(self) -> None:
        if self._shapes.next_word() not in ("done", ""):
            raise Unfit(self._shapes.at, "the chart does nothing more in this step")
        self._shapes.take("done")

    # States.

    def _step(self) -> None:
        found = self._handler()
        record = self._shapes.take("run", "none")
        if found is None:
            if record.word == "run":
                raise self._shapes.refuse("no state handles the event")
            return
        source, number, row = found
        if record.word == "none" or record.numbers[1:] != (source.number, number):
            raise self._shapes.refuse(f"row {number} of state {source.name} handles the event")
        self._do_all(row.do)
        if row.to is None:
            return
        main = main_state(source, row.to)
        for state in _below(path_of(self._leaf), main):
            self._note("exit", state)
            self._do_all(state.exit)
        self._leaf = row.to
        self._enter(_below(path_of(row.to), main))
        self._drill(row.to)

    def _handler(self) -> tuple[State, int, Row] | None:
        for state in path_of(self._leaf):
            for number, row in enumerate(state.rows, 1):
                if row.on.number == self._event.signal and (
                    row.when is None or value_of(_guard(row.when), self._names())
                ):
                    return state, number, row
        return None

    def _enter(self, path: list[State]) -> None:
        for state in reversed(path):
            self._note("enter", state)
            self._do_all(state.entry)
            self._leaf = state

    def _drill(self, state: State) -> None:
        while state.init is not None:
            self._note("init", state)
            self._do_all(state.init_do)
            self._enter(_below(path_of(state.init), state))
            state = state.init

    def _note(self, word: str, state: State) -> None:
        if self._shapes.next_word() not in (word, ""):
            raise Unfit(self._shapes.at, f"`{word}` of state {state.name} is next")
        if self._shapes.take(word).numbers[1] != state.number:
            raise self._shapes.refuse(f"`{word}` of state {state.name} is next")

    # Actions.

    def _names(self) -> dict[str, int]:
        params = {f"p{place}": wrapped(value) for place, value in enumerate(self._event.params, 1)}
        return self._vars | params | {"ok": self._ok, "me": self._owner.priority}

    def _do_all(self, texts: list[str]) -> None:
        for text in texts:
            self.doing = text
            self._do(_action(text))

    def _do(self, action: Action) -> None:
        values = [value_of(value, self._names()) for value in action.values]
        match action.word:
            case "set":
                if self._vars[action.name] != values[0]:
                    self.assigned.append((self._shapes.at, action.name, values[0]))
                self._vars[action.name] = values[0]
            case "say":
                if self._shapes.next_word() != "say":
                    raise Unfit(self._shapes.at, f"the chart does `{action.text}` here")
                said = self._shapes.take("say").numbers[1]
                if said % _BITS != values[0] % _BITS:
                    raise self._shapes.refuse(f"the value of `{action.text}` is {values[0]}")
            case "locked":
                self._locked(action)
            case "flush":
                self._ok = 0
                while self._shapes.next_word() == "flush":
                    self._shapes.group(self._now)
                    self._ok += 1
            case _:
                self._call(action, values)

    def _locked(self, action: Action) -> None:
        ceiling = max(self._shapes.ceiling, action.ceiling)
        self._expect(action, "lock", (ceiling,), self._group(action))
        for inner in action.inner:
            self._do(inner)
        self._expect(action, "unlock", (), self._group(action))

    def _group(self, action: Action) -> Group:
        if self._shapes.next_word() in ("done", "exit", "enter", "init", "say"):
            raise Unfit(self._shapes.at, f"the chart does `{action.text}` here")
        return self._shapes.group(self._now)

    def _call(self, action: Action, values: list[int]) -> None:
        group = self._group(action)
        word = group.word
        allowed = _RECORDS[action.word]
        if word not in allowed:
            raise Unfit(group.at, f"the chart does `{action.text}` here")
        if word == "assert":
            raise _Asserted
        self._ok = group.answer
        self._compare(action, values, group)
        if group.asserted:
            raise _Asserted

    def _compare(self, action: Action, values: list[int], group: Group) -> None:
        numbers = group.record.numbers
        match group.word:
            case "post" | "full":
                self._expect(action, group.word, (self._priorities[action.target],), group)
                self._compare_margin(action, group)
            case "pub" | "sub" | "unsub" | "same":
                self._expect(action, group.word, (self._system.signals[action.name].number,), group)
            case "arm" | "disarm" | "rearm" | "idle":
                self._expect(action, group.word, (self._timers[action.name],), group)
                stated = {"arm": numbers[3:5], "rearm": numbers[4:5]}.get(group.word, ())
                if tuple(values) != stated:
                    raise Unfit(group.last, f"the values of `{action.text}` are {', '.join(map(str, values))}")
            case "short":
                if numbers[4] != action.reserve:
                    raise Unfit(group.last, f"the chart does `{action.text}` here")
        if action.word in ("post", "lifo", "publish") and group.word in ("post", "full", "lifo", "pub"):
            self._compare_event(action, values, group)

    def _compare_margin(self, action: Action, group: Group) -> None:
        numbers = group.record.numbers
        if group.word == "full":
            if numbers[5] != action.margin:
                raise Unfit(group.last, f"the chart does `{action.text}` here")
            return
        ring = next(other.queue for other in self._system.objects if other.priority == numbers[1])
        room = ring + 1 - (numbers[2] - 1 + numbers[3] - numbers[4])
        if room <= (action.margin or 0):
            raise Unfit(group.last, f"the chart does `{action.text}` here, and {room} entries were free")

    def _compare_event(self, action: Action, values: list[int], group: Group) -> None:
        signal = self._system.signals[action.name]
        event = (signal.number, *(value % _BITS for value in values))
        if signal.is_static:
            made: tuple[int, ...] = group.event or group.record.numbers[-2:-1] if group.word in ("post", "lifo") else event
        else:
            made = group.event
        if made != event or group.is_forward:
            raise Unfit(group.at, f"the chart does `{action.text}` here, which makes {action.name}({', '.join(map(str, values))})")

    def _expect(self, action: Action, word: str, numbers: tuple[int, ...], group: Group) -> None:
        if group.word != word or group.record.numbers[1:1 + len(numbers)] != numbers:
            raise Unfit(group.last, f"the chart does `{action.text}` here")


#: The records that say most of each action.
_RECORDS = {
    "post": {"post", "full", "short", "assert"}, "forward": {"post", "full", "assert"}, "lifo": {"lifo", "short", "assert"},
    "publish": {"pub", "short", "assert"}, "defer": {"defer", "nodefer"}, "recall": {"recall", "norecall"},
    "subscribe": {"sub", "same"}, "unsubscribe": {"unsub", "same"}, "arm": {"arm", "assert"}, "rearm": {"rearm", "assert"},
    "disarm": {"disarm", "idle"},
}


def _below(path: list[State], main: State | None) -> list[State]:
    return path[:path.index(main)] if main in path else path
