"""What a step is to do, as the list of its tasks."""

from collections.abc import Iterator
from typing import NamedTuple

from qpviewer.actions import Action, Expr, read_action, read_expression
from qpviewer.system_parts import Chart, Row, State
from qpviewer.tree import Move, path_of, row_moves, start_moves


class Note(NamedTuple):
    """A record that changes nothing, with the number of a state, 0 where it has none."""

    word: str
    state: int = 0


class Lock(NamedTuple):
    """The ceiling is raised at least to this."""

    ceiling: int


class Unlock(NamedTuple):
    """The ceiling is what it was before."""


class Point(NamedTuple):
    """A scheduling point: a row of looks under `qk`, and nothing under `port`."""


_DONE = Note("done")
Task = Action | Note | Lock | Unlock | Point


class Agenda(NamedTuple):
    """The tasks of a start or a step, and the number of the leaf that it ends in."""

    tasks: tuple[Task, ...]
    leaf: int


class Handler(NamedTuple):
    """A row that may take a signal: its state's number and its own, its guard, 1 where there is none, and the number of its agenda."""

    state: int
    row: int
    guard: Expr | None
    agenda: int


class Agendas:
    """The agendas of a chart, by number. The start is number 0; the number of a step that no row takes is that of its leaf."""

    def __init__(self, chart: Chart):
        self.all: list[Agenda] = [Agenda((Note("begin"), *_tasks(chart.init_do), *_moved(chart, start_moves(chart)), _DONE), _inmost(chart.init).number)]
        self.all += [Agenda((_DONE,), state.number) for state in chart.states]
        self._handlers: dict[tuple[int, int], list[Handler]] = {}
        for leaf in chart.states:
            for state in path_of(leaf):
                for number, row in enumerate(state.rows, 1):
                    handlers = self._handlers.setdefault((leaf.number, row.on.number), [])
                    guard = read_expression(row.when) if row.when is not None else None
                    handlers.append(Handler(state.number, number, guard, len(self.all)))
                    self.all.append(_step(chart, leaf, state, row))

    def handlers(self, leaf: int, signal: int) -> list[Handler]:
        """The rows for a signal in a leaf, in the order in which they are asked."""
        return self._handlers.get((leaf, signal), [])


def _step(chart: Chart, leaf: State, source: State, row: Row) -> Agenda:
    moved = _moved(chart, row_moves(leaf, source, row))
    return Agenda((*_pointed(_tasks(row.do)), *_pointed(moved), _DONE), (_inmost(row.to) if row.to else leaf).number)


def _moved(chart: Chart, moves: list[Move]) -> Iterator[Task]:
    for word, number in moves:
        yield Note(word, number)
        state = chart.states[number - 1]
        yield from _tasks({"exit": state.exit, "enter": state.entry, "init": state.init_do}[word])


def _tasks(texts: list[str]) -> Iterator[Task]:
    for text in texts:
        action = read_action(text)
        if action.word == "locked":
            yield Lock(action.ceiling)
            yield from action.inner
            yield Unlock()
        else:
            yield action


def _pointed(tasks: Iterator[Task]) -> Iterator[Task]:
    """With a scheduling point behind each action, and behind a whole `locked`."""
    for task in tasks:
        yield task
        if not isinstance(task, (Lock, Note)):
            yield Point()


def _inmost(state: State) -> State:
    """The leaf to which initial transitions lead."""
    while state.init:
        state = state.init
    return state
