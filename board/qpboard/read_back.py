"""Reads printed tables back, and tells what of them differs from the system. Of the printer it uses the numbers' table alone."""

from collections.abc import Iterator, Sequence
from dataclasses import replace
from typing import NamedTuple

from qpviewer.actions import Action, Binary, Expr, Number, Unary, read_action, read_expression
from qpviewer.system_parts import Chart, Object, State, System

from .decoding import Decoder, Known
from .numbers import FIRST_SIGNAL
from .printed import Declaration, Head, NotRead, Value, read_body, read_head

_CODE, _STATES, _ROWS, _CHART = "uint8_t", "qpb_state", "qpb_row", "qpb_chart"
_SHORT = 2**16
_NARROW = range(-(2**31), 2**31)


def differences(system: System, head: str, body: str) -> list[str]:
    """What of NAME.h and NAME.c isn't the system; none where they denote it."""
    try:
        return list(_Comparison(system, read_head(head), read_body(body)).all())
    except NotRead as wrong:
        return [str(wrong)]


class _Row(NamedTuple):
    """A row of a table that was read: numbers and names."""

    members: list[Value]

    def number(self, place: int) -> int:
        value = self.members[place]
        if not isinstance(value, int):
            raise NotRead(f"{value} isn't a number")
        return value

    def numbers(self) -> list[int]:
        return [self.number(place) for place in range(len(self.members))]

    def name(self, place: int) -> str:
        value = self.members[place]
        if not isinstance(value, str):
            raise NotRead(f"{value} isn't a name")
        return value


class _Comparison:
    """A system beside tables."""

    def __init__(self, system: System, head: Head, body: dict[str, Declaration]):
        self._system, self._head, self._body = system, head, body
        self._named: set[str] = set()
        self._used: set[str] = set()
        self._deepest = 1
        self._longest = 0
        self._is_wide = False
        self._params = [row.number(1) for row in self._rows("qpb_signals", "qpb_signal const", 2)]

    def all(self) -> Iterator[str]:
        yield from self._objects()
        yield from self._pools()
        yield from self._signals()
        yield from self._timers()
        yield from self._names()
        yield from self._sizes()
        if strange := set(self._body) - self._named:
            yield f"{', '.join(sorted(strange))}: of no use"

    # Tables of rows.

    def _declared(self, name: str, kind: str) -> Declaration:
        found = self._body.get(name)
        if found is None or found.kind != kind:
            raise NotRead(f"{name} isn't declared as {kind}")
        self._named.add(name)
        return found

    def _rows(self, name: str, kind: str, width: int) -> list[_Row]:
        value = self._declared(name, kind).value
        rows = value if isinstance(value, list) else []
        if not rows or not all(isinstance(row, list) and len(row) == width for row in rows):
            raise NotRead(f"{name} isn't a list of rows of {width}")
        return [_Row(row) for row in rows if isinstance(row, list)]

    def _memory(self, name: str, kind: str, length: int) -> Iterator[str]:
        """An array that is written to: of a kind, so long, and no other's. None where its length is 0."""
        if length == 0:
            if name != "NULL":
                yield f"{name}: nothing is kept there"
            return
        if name in self._named:
            yield f"{name} stands for two things"
        found = self._declared(name, f"static {kind}")
        if found.length != length or found.value is not None:
            yield f"{name} hasn't {length} places"

    # Objects and their charts.

    def _objects(self) -> Iterator[str]:
        rows = self._rows("qpb_objects", "qpb_object const", 10)
        if len(rows) != len(self._system.objects):
            yield f"{len(rows)} objects"
            return
        charts: dict[str, Chart] = {}
        timers = 0
        for owner, row in zip(self._system.objects, rows):
            yield from self._object(owner, row, timers)
            timers += len(owner.chart.timers)
            name = row.name(0)
            if charts.setdefault(name, owner.chart) is not owner.chart or not name.startswith("&"):
                yield f"object {owner.name}: {name} isn't its chart"
        if len(charts) != len(set(map(id, charts.values()))):
            yield "a chart stands twice"
        for name, chart in charts.items():
            yield from self._chart(name[1:], chart)

    def _object(self, owner: Object, row: _Row, timers: int) -> Iterator[str]:
        wanted = [owner.priority, owner.threshold, owner.queue, owner.defer, timers]
        if [row.number(place) for place in range(5, 10)] != wanted:
            yield f"object {owner.name}: its numbers aren't {wanted}"
        yield from self._memory(row.name(3), "qpb_entry", owner.queue + 1)
        yield from self._memory(row.name(4), "qpb_entry", owner.defer)
        yield from self._memory(row.name(2), "qpb_int", len(owner.vars))
        first = row.name(1)
        if not owner.vars:
            if first != "NULL":
                yield f"object {owner.name}: it has no variables"
            return
        values = self._declared(first, "static qpb_int const").value
        wanted = [owner.vars[name] for name in sorted(owner.vars)]
        self._is_wide |= any(value not in _NARROW for value in wanted)
        if values != wanted:
            yield f"object {owner.name}: its first values aren't {wanted}"

    def _chart(self, name: str, chart: Chart) -> Iterator[str]:
        members = self._declared(name, f"static {_CHART} const").value
        if not isinstance(members, list) or len(members) != 6:
            raise NotRead(f"{name} isn't a chart")
        row = _Row(members)
        states, rows, code = (self._part(row.name(place), kind) for place, kind in enumerate((_STATES, _ROWS, _CODE)))
        known = Known(
            [owner.name for owner in self._system.objects], list(self._system.signals), self._params,
            sorted(chart.vars), [timer.name for timer in chart.timers],
        )
        decoder = Decoder(code.value, known)
        reading = _ChartReading(chart, decoder)
        yield from reading.compare(row, self._rows(row.name(0), f"static {_STATES} const", 7), self._rows(row.name(1), f"static {_ROWS} const", 4))
        if left := decoder.unread():
            yield f"chart {chart.name}: the code at {left[0]} is of no list"
        self._used |= decoder.used
        self._deepest = max(self._deepest, decoder.deepest)
        self._longest = max(self._longest, len(decoder.read))
        self._is_wide |= "N8" in decoder.used

    def _part(self, name: str, kind: str) -> Declaration:
        if name in self._named:
            raise NotRead(f"{name} stands in two charts")
        return self._declared(name, f"static {kind} const")

    # The rest.

    def _pools(self) -> Iterator[str]:
        rows = self._rows("qpb_pools", "qpb_pool const", 4)
        if not self._system.pools:
            if [row.members for row in rows] != [["NULL", "NULL", 0, 0]]:
                yield "there are no pools"
            return
        if len(rows) != len(self._system.pools):
            yield f"{len(rows)} pools"
        for number, (pool, row) in enumerate(zip(self._system.pools, rows), 1):
            if (row.number(2), row.number(3)) != (pool.size, pool.blocks):
                yield f"pool {number}: not {pool.blocks} blocks of {pool.size}"
            yield from self._memory(row.name(0), "qpb_block", pool.blocks)
            yield from self._memory(row.name(1), "qpb_int", pool.blocks * pool.size)

    def _signals(self) -> Iterator[str]:
        wanted = []
        for signal in self._system.signals.values():
            large = [number for number, pool in enumerate(self._system.pools, 1) if pool.size >= signal.params]
            wanted.append([0 if signal.is_static else large[0] if large else -1, signal.params])
        rows = [row.numbers() for row in self._rows("qpb_signals", "qpb_signal const", 2)]
        if rows != (wanted or [[0, 0]]):
            yield f"the signals aren't {wanted}"

    def _timers(self) -> Iterator[str]:
        places = {owner.priority: place for place, owner in enumerate(self._system.objects)}
        wanted = [[places[event.owner.priority], event.timer.signal.number, event.timer.rate] for event in self._system.time_events]
        rows = [row.numbers() for row in self._rows("qpb_timers", "qpb_timer const", 3)]
        if rows != (wanted or [[0, 0, 0]]):
            yield f"the time events aren't {wanted}"

    def _names(self) -> Iterator[str]:
        """Each signal, object and state has a name of its own, which begins with that of the system."""
        charts = list(dict.fromkeys(owner.chart for owner in self._system.objects))
        wanted = [
            [(f"{name}_SIG", FIRST_SIGNAL + place) for place, name in enumerate(self._system.signals)],
            [(f"AO_{owner.name}", place) for place, owner in enumerate(self._system.objects)],
            [(f"{chart.name}_{state.name}_STATE", state.number) for chart in charts for state in chart.states],
        ]
        lists = [members for members in wanted if members]
        if [len(found) for found in self._head.enums] != [len(members) for members in lists]:
            yield "the enums haven't a member for each signal, object and state"
            return
        for found, members in zip(self._head.enums, lists):
            for (name, number), (wanted_name, wanted_number) in zip(found.items(), members):
                if name.rstrip("_") != wanted_name.rstrip("_") or number != wanted_number:
                    yield f"{name} = {number} isn't {wanted_name} = {wanted_number}"

    def _sizes(self) -> Iterator[str]:
        wanted = {
            "QPB_OBJECTS": str(len(self._system.objects)), "QPB_POOLS": str(len(self._system.pools)),
            "QPB_SIGNALS": str(len(self._system.signals)), "QPB_TIMERS": str(len(self._system.time_events)),
            "QPB_STACK": str(self._deepest),
        }
        wanted |= {"QPB_PLACE": "uint32_t"} if self._longest >= _SHORT else {}
        wanted |= {"QPB_NEEDS_64": ""} if self._is_wide else {}
        if self._head.defined != wanted:
            yield f"NAME.h defines {self._head.defined}, not {wanted}"
        if self._head.used != self._used:
            yield f"NAME.h says that the charts do {sorted(self._head.used)}, and they do {sorted(self._used)}"


class _ChartReading:
    """A chart beside its tables."""

    def __init__(self, chart: Chart, decoder: Decoder):
        self._chart, self._decoder = chart, decoder

    def compare(self, head: _Row, states: list[_Row], rows: list[_Row]) -> Iterator[str]:
        chart = self._chart
        if (head.number(4), head.number(5)) != (chart.init.number, len(chart.vars)):
            yield f"chart {chart.name}: its start or its variables"
        yield from self._list(f"chart {chart.name}.init_do", head.number(3), chart.init_do)
        if states[0].numbers() != [0] * 7 or len(states) != len(chart.states) + 1:
            yield f"chart {chart.name}: its states"
            return
        first = 0
        for state, row in zip(chart.states, states[1:]):
            yield from self._state(state, row, first)
            yield from self._rows(state, rows[first:first + len(state.rows)])
            first += len(state.rows)
        if [row.numbers() for row in rows[first:]] != ([] if first else [[0] * 4]):
            yield f"chart {chart.name}: rows of no state"

    def _state(self, state: State, row: _Row, first: int) -> Iterator[str]:
        where = f"chart {self._chart.name}.{state.name}"
        parent, init = (other.number if other else 0 for other in (state.parent, state.init))
        if row.numbers()[:4] != [parent, init, len(state.rows), first]:
            yield f"{where}: its parent, its initial target or its rows"
        for place, (key, texts) in enumerate((("entry", state.entry), ("exit", state.exit), ("init_do", state.init_do)), 4):
            yield from self._list(f"{where}.{key}", row.number(place), texts)

    def _rows(self, state: State, rows: Sequence[_Row]) -> Iterator[str]:
        for number, (wanted, row) in enumerate(zip(state.rows, rows), 1):
            where = f"chart {self._chart.name}.{state.name}.row {number}"
            if (row.number(0), row.number(1)) != (wanted.on.number, wanted.to.number if wanted.to else 0):
                yield f"{where}: its signal or its target"
            if wanted.when is None:
                if row.number(2):
                    yield f"{where}: it has no guard"
            elif self._decoder.guard_at(row.number(2)) != _folded(read_expression(wanted.when)):
                yield f"{where}: its guard isn't `{wanted.when}`"
            yield from self._list(f"{where}.do", row.number(3), wanted.do)
        if len(rows) != len(state.rows):
            yield f"chart {self._chart.name}.{state.name}: its rows"

    def _list(self, where: str, place: int, texts: list[str]) -> Iterator[str]:
        found = self._decoder.actions_at(place) if place else []
        if [_meaning(action) for action in found] != [_meaning(_with_signs(read_action(text))) for text in texts]:
            yield f"{where}: it isn't `{'; '.join(texts)}`"


def _meaning(action: Action) -> tuple[object, ...]:
    """All of an action but its text."""
    inner = [_meaning(one) for one in action.inner]
    return action.word, action.target, action.name, action.values, action.margin, action.reserve, inner, action.ceiling


def _with_signs(action: Action) -> Action:
    """An action whose expressions are folded."""
    return replace(action, values=[_folded(value) for value in action.values], inner=[_with_signs(one) for one in action.inner])


def _folded(tree: Expr) -> Expr:
    """An expression in which a sign before a number is part of the number."""
    match tree:
        case Unary("-", Number(value)):
            return Number(-value)
        case Unary(operator, operand):
            return Unary(operator, _folded(operand))
        case Binary(operator, left, right):
            return Binary(operator, _folded(left), _folded(right))
    return tree
