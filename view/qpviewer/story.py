"""A run as the page's script draws it: one value of lists, numbers and texts."""

from dataclasses import fields
from functools import cached_property
from typing import Any

from .course_places import Courses
from .foreign import Foreign, first_foreign
from .journal import KERNELS, PORT, QK, SIM, Journal, Record
from .naming import Names
from .order import order_of
from .record_words import RecordWords
from .rows import LineRow, Rows
from .shapes import References
from .steps_told import Ceiling, Step, StepsTold, Stimulus
from .system_parts import Object, System
from .words_told import WordsTold


class Story:
    """What a journal tells, record by record in one order."""

    def __init__(self, system: System, stimuli: list[list[str]], journal: Journal):
        self.system, self.stimuli, self.journal = system, stimuli, journal
        self.order = order_of(journal, len(system.objects))
        self.rows = Rows(journal, system)
        self.names = Names(system)
        self._told = RecordWords(self.names)
        self._references = References.of(journal)
        self.words = WordsTold(system, self.names)
        self.steps = StepsTold(system, self.rows, self.words)
        self._row_of: list[int] = []
        self._events: list[str] = []
        for index, (lane, record) in enumerate(self.records()):
            self._row_of.append(self.rows.row_of(lane, record.numbers[0]))
            self.words.tell(index, lane, record)
            self.steps.tell(index, lane, record)
            self._events.append(self.words.event_told(lane, record))
        self.steps.finish(max(len(self._row_of) - 1, 0))

    def records(self) -> list[tuple[int, Record]]:
        """The records in order, each with its lane."""
        return [(lane, self.journal.lanes[lane][at]) for lane, at in self.order.places]

    def record_at(self, index: int) -> Record:
        """The record at a place in the order."""
        lane, at = self.order.places[index]
        return self.journal.lanes[lane][at]

    @cached_property
    def courses(self) -> Courses:
        """The courses of the objects through their charts."""
        return Courses(self.system, self.journal, self._references)

    def line_of(self, index: int) -> int:
        """The line of the journal's text that has a record, from 1: behind the head stands each lane behind its own."""
        lane, at = self.order.places[index]
        return 2 + sum(len(records) + 1 for records in self.journal.lanes[:lane]) + at + 1

    def row_of(self, index: int) -> int:
        """The row of the time line in which a record stands."""
        return self._row_of[index]

    def in_words(self, index: int) -> tuple[str, str]:
        """Who made a record, as its row is called, and what it says."""
        record = self.record_at(index)
        row = self.rows.rows[self._row_of[index]]
        event = self._events[index] or "an event"
        return row.name, self._told.words(record, event, self.stimulus_of(row, record), self._references.is_last_drop(record))

    def stimulus_of(self, row: LineRow, record: Record) -> str:
        """The line of the stimulus that a `stim` of this row begins; nothing for another record."""
        if record.word != "stim":
            return ""
        place = record.numbers[1]
        lines = self.stimuli[row.source - 1] if 1 <= row.source <= len(self.stimuli) else []
        return lines[place - 1] if 1 <= place <= len(lines) else f"stimulus {place}"

    def stop(self) -> int | None:
        """The record at which the run was stopped: the `assert` of the lowest lane that has one, or else its `spent` or
        `spill`."""
        places = self.order.places
        for words in (("assert",), ("spent", "spill")):
            stops = [index for index, word in self.steps.marks if word in words]
            if stops:
                return min(stops, key=lambda index: places[index][0])
        return None

    def first_stimulus(self) -> int:
        """Where the first stimulus stands in the order; 0 where there is none."""
        return min((stimulus.first for stimulus in self.steps.stimuli), default=0)

    def asserting_action(self, index: int) -> str:
        """The text of the chart's action whose assertion stands at a record; nothing for another record."""
        record = self.record_at(index)
        owner = next((entry for entry in self.system.objects if entry.priority == record.numbers[0]), None)
        return self.courses.action_that_asserts(owner) if record.word == "assert" and owner else ""

    def foreign(self) -> Foreign | None:
        """The first record that names what the system doesn't have."""
        return first_foreign((record for _, record in self.records()), self.system)

    def model(self, opens_at: int = 0) -> dict[str, Any]:
        """The value for the page's script, which first shows the record at this place; places are those in the order,
        from 0."""
        journal = self.journal
        return {
            "kernel": KERNELS[journal.kernel],
            "meaning": self.order.meaning,
            "against": self.order.against,
            "columns": self.order.columns,
            "hasColumns": journal.kernel in (QK, PORT),
            "rows": [self._row(place) for place in range(len(self.rows.rows))],
            "rowOf": self._row_of,
            "steps": _by_field(Step, self.steps.steps),
            "stimuli": _by_field(Stimulus, self.steps.stimuli),
            "ceilings": _by_field(Ceiling, self.steps.ceilings),
            "hasCeilings": journal.kernel in (SIM, QK),
            "arrows": self.words.arrows,
            "marks": self.steps.marks,
            "opensAt": opens_at,
            "changes": self._changes(),
            "lastDrops": [index for index, (_, record) in enumerate(self.records()) if self._references.is_last_drop(record)],
            "labels": self.words.labels,
            "sources": self.stimuli,
            "objects": [self._object(entry) for entry in reversed(self.system.objects)],
            "pools": [
                {"size": pool.size, "blocks": pool.blocks, "free": self.words.free[number]}
                for number, pool in enumerate(self.system.pools, 1)
            ],
            "signals": {signal.number: signal.name for signal in self.system.signals.values()},
            "charts": [
                {"name": chart.name, "states": [state.name for state in chart.states]}
                for chart in self.system.charts.values()
            ],
            "timers": [f"{event.owner.name}.{event.timer.name}" for event in self.system.time_events],
        }

    def _changes(self) -> list[list]:
        """What the records change, in order: words, steps, and the variables of the charts."""
        index_of = {place: index for index, place in enumerate(self.order.places)}
        found = [
            ["assigned", index_of[one.lane, one.at], owner.priority, one.name, str(one.value)]
            for owner in self.system.objects if owner.vars
            for one in self.courses.assignments(owner)
        ]
        return sorted([*self.words.changes, *found], key=lambda change: change[1])

    def _row(self, place: int) -> dict[str, Any]:
        row = self.rows.rows[place]
        return {"kind": row.kind, "name": row.name, "priority": row.object.priority if row.object else 0}

    def _object(self, entry: Object) -> dict[str, Any]:
        charts = list(self.system.charts.values())
        return {
            "name": entry.name, "priority": entry.priority, "chart": charts.index(entry.chart),
            "capacity": entry.queue + 1, "canDefer": entry.defer > 0, "lengths": self.words.lengths[entry.priority],
            "vars": {name: str(value) for name, value in entry.vars.items()},
        }

    def object_lines(self) -> list[list[str]]:
        """The table of objects, highest priority first."""
        return [
            [
                entry.name, entry.chart.name, str(entry.priority), str(entry.threshold),
                str(self.steps.takes[entry.priority]),
                f"{self.words.longest[entry.priority]} of {entry.queue + 1}",
                str(self.words.left_in(entry.priority)),
                f"{self.steps.deferred[entry.priority]} of {entry.defer}",
                self._state_name(entry),
            ]
            for entry in reversed(self.system.objects)
        ]

    def _state_name(self, entry: Object) -> str:
        number = self.steps.states[entry.priority]
        return entry.chart.states[number - 1].name if 1 <= number <= len(entry.chart.states) else "-"

    def pool_lines(self) -> list[list[str]]:
        """The table of pools."""
        return [
            [
                str(number), str(pool.size), str(pool.blocks), str(self.words.fewest[number]),
                str(self.words.given[number]), str(self.words.returned[number]),
            ]
            for number, pool in enumerate(self.system.pools, 1)
        ]


def _by_field(kind: type, things: list) -> dict[str, list]:
    """One list for each field, which is shorter than one thing after another."""
    return {entry.name: [getattr(thing, entry.name) for thing in things] for entry in fields(kind)}
