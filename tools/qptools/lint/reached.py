"""Which states of a chart may be entered, and which of its rows can't be taken."""

from collections.abc import Iterator

from qpviewer.actions import read_expression, value_of
from qpviewer.system_parts import Chart, Row, State

from ..explain.names import asked_in
from .sites import way_to


def unreached(chart: Chart) -> list[State]:
    """The states that no way from the start enters, by the rows of the states that are entered; a row that is never taken leads nowhere."""
    entered: set[int] = set()
    left: list[State] = [chart.init]
    while left:
        target = left.pop()
        for state in way_to(target):
            if state.number in entered:
                continue
            entered.add(state.number)
            idle = {number for number, _ in never_taken(state)}
            left += [row.to for number, row in enumerate(state.rows, 1) if row.to and number not in idle]
        # its initial transition goes on from a target alone
        if target.init and target.init.number not in entered:
            left.append(target.init)
    return [state for state in chart.states if state.number not in entered]


def never_taken(state: State) -> Iterator[tuple[int, str]]:
    """The numbers of the rows that are never taken, each with why."""
    seen: dict[tuple[str, str], int] = {}
    always: dict[str, int] = {}
    for number, row in enumerate(state.rows, 1):
        guard = " ".join((row.when or "").split())
        value = _constant(row)
        if row.on.name in always:
            yield number, f"row {always[row.on.name]} takes each {row.on.name} before it"
        elif value == 0:
            yield number, "its guard is always 0"
        elif (row.on.name, guard) in seen:
            yield number, f"row {seen[row.on.name, guard]} has the same signal and the same guard"
        if value:
            always.setdefault(row.on.name, number)
        seen.setdefault((row.on.name, guard), number)


def _constant(row: Row) -> int | None:
    """The value of a guard that asks for nothing; 1 where there is none."""
    if row.when is None:
        return 1
    return None if asked_in(row.when, True) else value_of(read_expression(row.when), {})
