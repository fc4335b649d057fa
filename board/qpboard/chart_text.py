"""A chart as lines of a comment in C."""

from qpviewer.system_parts import Chart, Row, State


def chart_lines(chart: Chart) -> list[str]:
    """The chart as its file has it: states within their parents' order, rows with guard, actions and target."""
    lines = [f"chart {chart.name}: starts in {chart.init.name}{_doing(chart.init_do)}"]
    if chart.vars:
        lines.append(f"  variables {', '.join(chart.vars)}")
    for place, timer in enumerate(chart.timers):
        lines.append(f"  time event {place}: {timer.name} posts {timer.signal.name}, by rate {timer.rate}")
    for state in chart.states:
        lines += _state_lines(state)
    return lines


def _state_lines(state: State) -> list[str]:
    within = f" within {state.parent.name}" if state.parent else ""
    lines = [f"  state {state.number} {state.name}{within}"]
    lines += [f"    {key}{_doing(texts)}" for key, texts in (("entry", state.entry), ("exit", state.exit)) if texts]
    if state.init:
        lines.append(f"    initially {state.init.name}{_doing(state.init_do)}")
    return lines + [f"    {number} {_row_text(row)}" for number, row in enumerate(state.rows, 1)]


def _row_text(row: Row) -> str:
    guard = "" if row.when is None else f" [{row.when}]"
    target = f" -> {row.to.name}" if row.to else ""
    return f"{row.on.name}{guard}{_doing(row.do)}{target}"


def _doing(texts: list[str]) -> str:
    return f" / {'; '.join(texts)}" if texts else ""
