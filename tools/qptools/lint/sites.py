"""The actions of a chart with their places, and those that its start does."""

from collections.abc import Iterator
from typing import NamedTuple

from qpviewer.actions import Action
from qpviewer.system_parts import Chart, State

from ..explain.names import actions_in


class Site(NamedTuple):
    """An action and the path of the text that has it."""

    path: str
    action: Action


def sites(chart: Chart, number: int) -> Iterator[Site]:
    """All actions of the chart with this number in the file."""
    path = f"chart.{number}"
    yield from _listed(f"{path}.init_do", chart.init_do)
    for state in chart.states:
        yield from _entering(state, path)
        yield from _listed(f"{_path(state, path)}.exit", state.exit)
        yield from _listed(f"{_path(state, path)}.init_do", state.init_do)
        for place, row in enumerate(state.rows, 1):
            yield from _listed(f"{_path(state, path)}.row.{place}.do", row.do)


def start_sites(chart: Chart, number: int) -> Iterator[Site]:
    """The actions that an object of the chart does when it starts, in their order."""
    path = f"chart.{number}"
    yield from _listed(f"{path}.init_do", chart.init_do)
    target: State | None = chart.init
    inner: State | None = None
    while target:
        for state in way_to(target, inner):
            yield from _entering(state, path)
        inner = target
        if target.init:
            yield from _listed(f"{_path(target, path)}.init_do", target.init_do)
        target = target.init


def way_to(state: State, above: State | None = None) -> list[State]:
    """The states on the way from below `above` (from the top where it is none) down to this one."""
    way: list[State] = []
    at: State | None = state
    while at is not None and at is not above:
        way.append(at)
        at = at.parent
    return way[::-1]


def _path(state: State, path: str) -> str:
    return f"{path}.state.{state.number}"


def _entering(state: State, path: str) -> Iterator[Site]:
    yield from _listed(f"{_path(state, path)}.entry", state.entry)


def _listed(path: str, texts: list[str]) -> Iterator[Site]:
    for place, text in enumerate(texts, 1):
        for action in actions_in(text):
            yield Site(f"{path}.{place}", action)
