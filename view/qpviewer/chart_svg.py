"""A chart's picture as SVG; the page's style gives its colours, and its script marks states and rows."""

from html import escape

from .chart_layout import PAD, Box, Edge, Initial, Picture

#: On a narrow page a picture shrinks to this share of its width; below that it is moved sideways.
NARROWEST = 0.84


def chart_svg(picture: Picture, name: str) -> str:
    """The picture's SVG. States and rows are found by `data-state` and `data-row`."""
    width, height = round(picture.width), round(picture.height)
    parts = [
        f'<svg class="chart" width="{width}" height="{height}" viewBox="0 0 {width} {height}" role="img" '
        f'style="min-width:{round(width * NARROWEST)}px" aria-label="Statechart {escape(name)}">',
        *(_box(box) for box in picture.boxes),
        *(_edge(edge) for edge in picture.edges),
        _initial(picture.initial, 0),
        *(_initial(box.initial, box.state.number) for box in picture.boxes if box.initial),
        "</svg>",
    ]
    return "\n".join(parts)


def _number(value: float) -> str:
    return f"{value:.1f}".removesuffix(".0")


def _box(box: Box) -> str:
    x, y, right = _number(box.x), _number(box.y), _number(box.right - PAD)
    number, base = box.state.number, _number(box.y + 16)
    lines = "".join(
        f'<text class="{"row never" if text.is_never else "row" if text.row else "does"}" data-row="{text.row}" x="{_number(text.x)}" '
        f'y="{_number(text.y)}">{escape(text.words)}</text>'
        for text in box.texts
    )
    return (
        f'<g class="state" data-state="{number}">'
        f'<rect x="{x}" y="{y}" width="{_number(box.width)}" height="{_number(box.height)}" rx="6"/>'
        f'<text class="name" x="{_number(box.x + PAD)}" y="{base}">{escape(box.state.name)}</text>'
        f'<text class="who" x="{right}" y="{base}" data-room="{box.who}"></text>{lines}</g>'
    )


def _arrow(x: float, y: float, side: int) -> str:
    """The head of an arrow whose tip is here, pointing to the right (1) or to the left (-1)."""
    back = _number(x - 6 * side)
    return f"M{back} {_number(y - 3.5)}L{_number(x)} {_number(y)}L{back} {_number(y + 3.5)}"


def _edge(edge: Edge) -> str:
    x, start, end = _number(edge.x), _number(edge.y), _number(edge.target_y)
    line = f"M{_number(edge.source.right)} {start}H{x}V{end}H{_number(edge.target.right + 1)}"
    head = _arrow(edge.target.right + 1, edge.target_y, -1)
    return f'<path class="edge" data-from="{edge.source.state.number}" data-row="{edge.row}" d="{line}{head}"/>'


def _initial(initial: Initial, state: int) -> str:
    words = "".join(
        f'<text class="does" x="{_number(line.x)}" y="{_number(line.y)}">{escape(line.words)}</text>'
        for line in initial.words
    )
    dot = f'<circle class="dot" cx="{_number(initial.x)}" cy="{_number(initial.y)}" r="4.5"/>'
    target = initial.target
    if target is None:
        return dot + words
    end = target.title_y
    line = f"M{_number(initial.x)} {_number(initial.y)}V{_number(end)}H{_number(target.x - 1)}"
    return f'<path class="initial" data-init="{state}" d="{line}{_arrow(target.x - 1, end, 1)}"/>{dot}{words}'
