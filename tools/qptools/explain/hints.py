"""What the program takes without a word and a user hardly means: `defer` in an object that has no deferred list."""

from collections.abc import Iterator

from qpviewer.system_parts import Chart, System

from .names import actions_in


def hints(system: System) -> list[str]:
    """A line for each row that defers in a chart of an object without `defer = N`."""
    found = []
    for owner in system.objects:
        if owner.defer:
            continue
        for where in _defers(owner.chart):
            found.append(f"{where} has `defer`, and object {owner.name} has no `defer = N`, so nothing is ever deferred there")
    return found


def _defers(chart: Chart) -> Iterator[str]:
    for state in chart.states:
        for number, row in enumerate(state.rows, 1):
            for place, text in enumerate(row.do, 1):
                if any(action.word == "defer" for action in actions_in(text)):
                    yield f"chart {chart.name}, state {state.name}, row {number} (on {row.on.name}), action {place}"
