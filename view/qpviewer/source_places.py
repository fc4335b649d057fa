"""Where the lane of a source fails (D20): the first record that doesn't fit its stimuli."""

import re

from .journal import PORT, Journal, Record
from .object_places import failure_at
from .shapes import Group, References, Shapes, Unfit
from .system_parts import Object, System
from .word_places import Failure, Spot

_EVENT = re.compile(r"(?:post ([A-Za-z_0-9]+)|publish) ([A-Za-z_0-9]+)(?:\(([0-9,]+)\))?(?: margin ([0-9]+))?(?: reserve ([0-9]+))?")


def source_failure(system: System, journal: Journal, lane: int, stimuli: list[list[str]] | None) -> Failure | None:
    """The first record that fits no stimulus, or not the one that the file has; `None` for stimuli asks shapes alone."""
    source = lane - (len(system.objects) + 1 if journal.kernel == PORT else 1)
    if source < 0 or lane >= len(journal.lanes):
        return None
    spots = [Spot(lane, at, record) for at, record in enumerate(journal.lanes[lane])]
    lines = stimuli[source] if stimuli is not None and source < len(stimuli) else None
    shapes = Shapes(spots, References.of(journal), 0)
    try:
        _read(system, journal, shapes, lines)
    except Unfit as unfit:
        return failure_at(spots, unfit)
    return None


def _read(system: System, journal: Journal, shapes: Shapes, lines: list[str] | None) -> None:
    place = 0
    while not shapes.is_done:
        if shapes.next_word() == "spill":
            return
        stim = shapes.take("stim")
        place += 1
        if stim.numbers[1] != place:
            raise shapes.refuse(f"it is the stimulus {place} of its source")
        if journal.kernel == PORT and stim.numbers[2]:
            raise shapes.refuse("the number of a look is 0 with threads")
        if lines is not None and place > len(lines):
            raise shapes.refuse(f"its source has {len(lines)} stimuli")
        line = lines[place - 1] if lines is not None else ""
        if (line or shapes.next_word()).startswith("settle"):
            _read_settle(system, shapes)
        elif line.startswith("tick ") or not line and shapes.next_word() in ("idle", "tick", "fire"):
            _read_tick(system, shapes, int(line[5:]) if line else None)
        else:
            group = shapes.group(None)
            if line:
                _compare(system, shapes, group, line)
    if lines is not None and place < len(lines) and journal.status == 0:
        raise Unfit(shapes.at, f"its source has {len(lines)} stimuli, and the end is 0")


def _read_settle(system: System, shapes: Shapes) -> None:
    """Tries may stand before the one in which all queues are empty."""
    while True:
        shapes.take("settle")
        for owner in system.objects:
            seen = shapes.take("seen").numbers
            if seen[1] != owner.priority:
                raise shapes.refuse(f"the queue of object {owner.priority} is next")
            if seen[2] + seen[3] != seen[4]:
                break
        else:
            return
        if shapes.is_done:
            return


def _read_tick(system: System, shapes: Shapes, rate: int | None) -> None:
    for event in system.time_events:
        if event.timer.rate != rate and rate is not None:
            continue
        if rate is None and shapes.next_word() not in ("idle", "tick", "fire"):
            return
        record = shapes.take("idle", "tick", "fire")
        if rate is not None and record.numbers[1] != event.number:
            raise shapes.refuse(f"time event {event.number} is next")
        if record.word == "fire" and shapes.group(None).asserted:
            return


def _compare(system: System, shapes: Shapes, group: Group, line: str) -> None:
    """A post or a publication does what its line says."""
    parts = _EVENT.fullmatch(line)
    if not parts:
        return
    target, signal, params = parts[1], system.signals[parts[2]], tuple(map(int, parts[3].split(","))) if parts[3] else ()
    words = ("post", "full", "assert", "short") if target else ("pub", "assert", "short")
    if group.word not in words:
        raise Unfit(group.at, f"the stimulus is `{line}`")
    if group.event and group.event != (signal.number, *params):
        raise Unfit(group.at, f"the stimulus is `{line}`, of signal {signal.number}")
    if target and group.word in ("post", "full"):
        owner = next(owner for owner in system.objects if owner.name == target)
        if group.record.numbers[1] != owner.priority:
            raise Unfit(group.last, f"the stimulus is `{line}`, to object {owner.priority}")
        if group.word == "post" and (room := _room_before(owner, group.record)) <= int(parts[4] or 0):
            raise Unfit(group.last, f"the stimulus is `{line}`, and {room} entries were free")
    if group.word == "full" and str(group.record.numbers[5]) != parts[4]:
        raise Unfit(group.last, f"the stimulus is `{line}`")
    if group.word == "short" and str(group.record.numbers[4]) != parts[5]:
        raise Unfit(group.at, f"the stimulus is `{line}`")
    if group.word == "pub" and group.record.numbers[1] != signal.number:
        raise Unfit(group.last, f"the stimulus is `{line}`, of signal {signal.number}")


def _room_before(owner: Object, post: Record) -> int:
    """How many entries were free before a post."""
    first_in, last_in, taken = post.numbers[2:5]
    return owner.queue + 1 - (first_in - 1 + last_in - taken)
