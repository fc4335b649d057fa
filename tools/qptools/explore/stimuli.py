"""The stimuli of a source as they are done: what `qpviewer.stimuli` reads as lines, by their parts."""

import re
from typing import NamedTuple

from qpviewer.actions import wrapped
from qpviewer.system_parts import System

_EVENT = re.compile(r"(?:post ([A-Za-z_0-9]+)|publish) ([A-Za-z_0-9]+)(?:\(([0-9,]+)\))?(?: margin ([0-9]+))?(?: reserve ([0-9]+))?")


class Stimulus(NamedTuple):
    """A stimulus: its word; the place of the object that it posts to; its signal with the parameters, its margin and reserve; the places of
    the time events that it ticks."""

    word: str
    target: int = 0
    signal: str = ""
    params: tuple[int, ...] = ()
    margin: int | None = None
    reserve: int | None = None
    timers: tuple[int, ...] = ()


def stimulus_of(line: str, system: System) -> Stimulus:
    """The stimulus of a line that `read_stimuli` took."""
    if line == "settle":
        return Stimulus("settle")
    if line.startswith("tick "):
        rate = int(line[5:])
        return Stimulus("tick", timers=tuple(event.number - 1 for event in system.time_events if event.timer.rate == rate))
    parts = _EVENT.fullmatch(line)
    assert parts, line
    target, signal, params, margin, reserve = parts.groups()
    return Stimulus(
        "post" if target else "publish", next((place for place, owner in enumerate(system.objects) if owner.name == target), 0), signal,
        tuple(wrapped(int(value)) for value in params.split(",")) if params else (), int(margin) if margin else None, int(reserve) if reserve else None,
    )
