"""Which rows of a system's charts were taken, over any number of journals."""

from collections import Counter
from collections.abc import Iterator
from typing import NamedTuple

from .journal import Journal
from .record_words import plural
from .system_parts import Chart, Row, State, System


class Taken(NamedTuple):
    """A row of a chart's state with its number, and how often it was taken."""

    chart: Chart
    state: State
    number: int
    row: Row
    times: int


class Coverage:
    """Counts the `run` records of journals, of all objects of a chart together."""

    def __init__(self, system: System):
        self._system = system
        self._charts = {entry.priority: entry.chart.name for entry in system.objects}
        self._taken: Counter[tuple[str, int, int]] = Counter()

    def add(self, journal: Journal) -> None:
        for lane in journal.lanes:
            for record in lane:
                if record.word == "run" and record.numbers[0] in self._charts:
                    self._taken[self._charts[record.numbers[0]], record.numbers[1], record.numbers[2]] += 1

    def times(self, chart: Chart, state: State, number: int) -> int:
        """How often a row was taken; rows count from 1."""
        return self._taken[chart.name, state.number, number]

    def rows(self, chart: Chart) -> Iterator[Taken]:
        """The rows of a chart in the file's order."""
        for state in chart.states:
            for number, row in enumerate(state.rows, 1):
                yield Taken(chart, state, number, row, self.times(chart, state, number))

    def text(self) -> str:
        """For each chart how many of its rows were taken, and those that weren't."""
        lines = []
        for chart in self._system.charts.values():
            rows = list(self.rows(chart))
            never = [row for row in rows if not row.times]
            lines.append(f"chart {chart.name}: {len(rows) - len(never)} of {plural(len(rows), 'row')} taken")
            for taken in never:
                guard = f" when {taken.row.when}" if taken.row.when else ""
                target = f" to {taken.row.to.name}" if taken.row.to else ""
                lines.append(f"  never: state {taken.state.name}, row {taken.number} (on {taken.row.on.name}{guard}{target})")
        return "".join(f"{line}\n" for line in lines)
