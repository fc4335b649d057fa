"""What a start or a transition does to states: exits, entries and initial transitions, as docs/DEFINITIONS.md says."""

from .system_parts import Chart, Row, State

#: A record's word and the state that it states.
Move = tuple[str, int]


def path_of(state: State | None) -> list[State]:
    """A state and those around it, from the innermost."""
    path: list[State] = []
    while state and state not in path:
        path.append(state)
        state = state.parent
    return path


def start_moves(chart: Chart) -> list[Move]:
    """The moves of a start."""
    return _entries(path_of(chart.init)) + _drill(chart.init)


def row_moves(leaf: State, source: State, row: Row) -> list[Move]:
    """The moves of a row of `source` in the leaf; an internal transition has none."""
    if row.to is None:
        return []
    main = main_state(source, row.to)
    left, entered = path_of(leaf), path_of(row.to)
    if main:
        left = left[:left.index(main)] if main in left else left
        entered = entered[:entered.index(main)]
    return [("exit", state.number) for state in left] + _entries(entered) + _drill(row.to)


def main_state(source: State, target: State) -> State | None:
    """The innermost state that a transition neither leaves nor enters; none where that is the top."""
    if source is target:
        return source.parent
    around = path_of(target)
    return next((state for state in path_of(source) if state in around), None)


def _entries(path: list[State]) -> list[Move]:
    return [("enter", state.number) for state in reversed(path)]


def _drill(state: State) -> list[Move]:
    moves: list[Move] = []
    for _ in range(64):
        if state.init is None:
            break
        inner = path_of(state.init)
        moves.append(("init", state.number))
        moves += _entries(inner[:inner.index(state)] if state in inner else inner)
        state = state.init
    return moves
