"""Where the parts of a chart's picture stand.

States are boxes, one below another, and the states within a state are boxes within its box. What a state does stands
in its box as lines of text. The arrow of a transition leaves the box at the right, beside its line, and comes back
at the right of its target's name; between the two it runs in a track of its own right of all boxes, so that no arrow
crosses a text. The arrow of an initial transition runs left of the boxes that it may lead to, from a dot.
"""

import textwrap
from collections import defaultdict
from dataclasses import dataclass, field

from .coverage import Coverage
from .system_parts import Chart, Row, State

CHAR = 7.3
LINE = 17
TITLE = 24
PAD = 9
GAP = 9
GUTTER = 24
DOTTED = 20
TRACK = 11
WIDEST = 52


@dataclass
class Text:
    """A line of text at its baseline; `row` is the number of the state's row that it belongs to, 0 for none, which
    `is_never` taken."""

    x: float
    y: float
    words: str
    row: int = 0
    is_never: bool = False


@dataclass
class Initial:
    """An initial transition: its dot, the text beside it, and the box that it leads to."""

    x: float
    y: float
    words: list[Text]
    target: "Box | None" = None


@dataclass
class Box:
    """A state's box; `x` and `y` are of its upper left corner."""

    state: State
    lines: list[tuple[str, int]]
    never: set[int]
    children: list["Box"]
    who: int
    x: float = 0
    y: float = 0
    width: float = 0
    height: float = 0
    texts: list[Text] = field(default_factory=list)
    initial: Initial | None = None

    @property
    def right(self) -> float:
        return self.x + self.width

    @property
    def title_y(self) -> float:
        return self.y + TITLE / 2


@dataclass
class Edge:
    """A transition: the row of a state, from its line to its target through the track at `x`."""

    source: Box
    row: int
    y: float
    target: Box
    target_y: float = 0
    x: float = 0


@dataclass
class Picture:
    """A chart's picture and its size."""

    initial: Initial
    boxes: list[Box]
    edges: list[Edge]
    width: float
    height: float


def lay_out(chart: Chart, who: int, coverage: Coverage | None = None) -> Picture:
    """The picture of a chart, with room beside each state's name for so many letters of who is there, and behind each row
    how often it was taken."""
    below: dict[State | None, list[State]] = defaultdict(list)
    for state in chart.states:
        below[state.parent].append(state)
    times = {(taken.state, taken.number): taken.times for taken in coverage.rows(chart)} if coverage else {}
    tops = [_measured(state, below, who, times) for state in below[None]]
    initial = Initial(GUTTER / 2, PAD, _initial_lines(chart.init_do))
    top = PAD + max(DOTTED, len(initial.words) * LINE) + GAP / 2
    width = max([box.width for box in tops] + [_width(line.words) for line in initial.words])
    for box in tops:
        _place(box, GUTTER, top, width)
        top += box.height + GAP
    for place, line in enumerate(initial.words):
        line.x, line.y = GUTTER, PAD + 4 + place * LINE
    boxes = [box for outer in tops for box in _all(outer)]
    of = {box.state: box for box in boxes}
    initial.target = of[chart.init]
    for box in boxes:
        if box.initial and box.state.init:
            box.initial.target = of[box.state.init]
    edges = _edges(boxes, of)
    tracks = _assign_tracks(edges, GUTTER + width + 16)
    return Picture(initial, boxes, edges, GUTTER + width + 16 + tracks * TRACK + PAD, top)


def _row_lines(row: Row) -> list[str]:
    """A row as `SIGNAL [guard] / actions → target`, in one line, or broken before its parts where they are long."""
    parts = [f"{row.on.name} [{row.when}]" if row.when else row.on.name]
    if row.do:
        parts.append(f"/ {'; '.join(row.do)}")
    if row.to:
        parts.append(f"→ {row.to.name}")
    lines = _wrapped(parts[0])
    for part in parts[1:]:
        if len(lines[-1]) + 1 + len(part) <= WIDEST:
            lines[-1] += f" {part}"
        else:
            lines += [f"  {line}" for line in _wrapped(part)]
    return lines


def _wrapped(words: str) -> list[str]:
    return textwrap.wrap(words, WIDEST, subsequent_indent="  ", break_on_hyphens=False)


def _width(words: str) -> float:
    return len(words) * CHAR


def _initial_lines(actions: list[str]) -> list[Text]:
    return [Text(0, 0, line) for line in _wrapped(f"/ {'; '.join(actions)}")] if actions else []


def _times_words(times: int | None) -> str:
    return "" if times is None else f" · {times}×" if times else " · never"


def _measured(state: State, below: dict[State | None, list[State]], who: int, times: dict[tuple[State, int], int]) -> Box:
    """A state's box with its least size."""
    lines = [(line, 0) for line in _wrapped(f"entry / {'; '.join(state.entry)}") if state.entry]
    lines += [(line, 0) for line in _wrapped(f"exit / {'; '.join(state.exit)}") if state.exit]
    for number, row in enumerate(state.rows, 1):
        *first, last = _row_lines(row)
        lines += [(line, number) for line in [*first, last + _times_words(times.get((state, number)))]]
    never = {number for number in range(1, len(state.rows) + 1) if times.get((state, number)) == 0}
    box = Box(state, lines, never, [_measured(child, below, who, times) for child in below[state]], who)
    if state.init:
        box.initial = Initial(0, 0, _initial_lines(state.init_do))
    texts = [line for line, _ in lines] + [" " * (len(state.name) + (who + 2 if who else 0))]
    inner = [child.width + GUTTER - PAD for child in box.children]
    if box.initial:
        inner += [_width(line.words) + GUTTER - PAD for line in box.initial.words]
    box.width = max([_width(text) for text in texts] + inner) + 2 * PAD
    box.height = TITLE + len(lines) * LINE + (PAD / 2 if lines else 0) + _children_height(box)
    return box


def _initial_height(box: Box) -> float:
    return max(DOTTED, len(box.initial.words) * LINE + GAP / 2) if box.initial else 0


def _children_height(box: Box) -> float:
    children = sum(child.height + GAP for child in box.children)
    return _initial_height(box) + children + (GAP / 2 if box.children else 0)


def _place(box: Box, x: float, y: float, width: float) -> None:
    box.x, box.y, box.width = x, y, width
    y += TITLE
    for words, row in box.lines:
        shown = words.lstrip(" ")
        indent = _width(words) - _width(shown)
        box.texts.append(Text(x + PAD + indent, y + LINE - 6, shown, row, row in box.never))
        y += LINE
    if box.lines:
        y += PAD / 2
    if box.initial:
        box.initial.x, box.initial.y = x + GUTTER / 2, y + DOTTED / 2
        for place, line in enumerate(box.initial.words):
            line.x, line.y = x + GUTTER, y + LINE - 4 + place * LINE
        y += _initial_height(box)
    elif box.children:
        y += GAP / 2
    for child in box.children:
        _place(child, x + GUTTER, y, width - GUTTER - PAD)
        y += child.height + GAP


def _all(box: Box) -> list[Box]:
    return [box] + [inner for child in box.children for inner in _all(child)]


def _edges(boxes: list[Box], of: dict[State, Box]) -> list[Edge]:
    edges = []
    for box in boxes:
        for number, row in enumerate(box.state.rows, 1):
            if row.to:
                line = next(text for text in box.texts if text.row == number)
                edges.append(Edge(box, number, line.y - 4, of[row.to]))
    into: dict[State, list[Edge]] = defaultdict(list)
    for edge in edges:
        into[edge.target.state].append(edge)
    for state, arrows in into.items():
        spread = min(6.0, 16 / len(arrows))
        for place, edge in enumerate(sorted(arrows, key=lambda edge: edge.y)):
            edge.target_y = of[state].title_y + (place - (len(arrows) - 1) / 2) * spread
    return edges


def _assign_tracks(edges: list[Edge], left: float) -> int:
    """Gives each edge a track, the short ones near the boxes; answers how many tracks there are."""
    tracks: list[list[tuple[float, float]]] = []
    for edge in sorted(edges, key=lambda edge: abs(edge.y - edge.target_y)):
        low, high = sorted((edge.y, edge.target_y))
        for number, taken in enumerate(tracks):
            if all(high + 6 < other_low or other_high + 6 < low for other_low, other_high in taken):
                break
        else:
            number = len(tracks)
            tracks.append([])
        tracks[number].append((low, high))
        edge.x = left + number * TRACK
    return len(tracks)
