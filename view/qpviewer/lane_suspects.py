"""The first record of a lane that doesn't fit those before it: for verdicts on the kernel's lane and on sources."""

import re

from .journal import PORT, QV, Record
from .naming import Names
from .sites import At, Told
from .verdict import Verdict


def kernel_suspect(told: Told, verdict: Verdict) -> int | None:
    """Lane 0 under a kernel: starts ascending, then looks with their floor, what each shows, and whole steps."""
    lane = _KernelLane(told)
    return next((at.place for at in told.of_lane(0) if not lane.takes(at.record)), None)


class _KernelLane:
    """Who runs, what the last look showed, and which objects it has still to show."""

    def __init__(self, told: Told):
        self._objects = told.objects
        self._priorities = sorted(told.objects)
        self._is_cooperative = told.journal.kernel == QV
        self._started = 0
        self._looks = 0
        self._running: list[int] = []
        self._ceilings: list[int] = []
        self._to_show: list[int] = []
        self._waits: int | None = None

    def takes(self, record: Record) -> bool:
        word, numbers = record.word, record.numbers
        if self._waits is not None and word not in ("took", "spent"):
            return False
        if self._to_show and word != "seen":
            return False
        match word:
            case "begin":
                fits = self._started < len(self._priorities) and numbers[0] == self._priorities[self._started]
                self._started += 1
                self._running.append(numbers[0])
                return fits
            case "look":
                return self._look(numbers[1], numbers[2])
            case "seen":
                return self._seen(*numbers[1:])
            case "took":
                fits = numbers[0] == self._waits
                self._waits = None
                self._running.append(numbers[0])
                return fits
            case "done":
                return bool(self._running) and self._running.pop() == numbers[0]
            case "lock":
                self._ceilings.append(numbers[1])
            case "unlock":
                return bool(self._ceilings) and self._ceilings.pop() is not None
            case "rest":
                return self._is_cooperative and not self._running and numbers[1] == self._looks
        return True

    def _look(self, count: int, floor: int) -> bool:
        self._looks += 1
        self._to_show = [priority for priority in reversed(self._priorities) if priority > floor]
        if not self._running:
            wanted = 0
        elif self._is_cooperative:
            wanted = 32
        else:
            top = self._objects.get(self._running[-1])
            wanted = max(top.threshold if top else 0, self._ceilings[-1] if self._ceilings else 0)
        return count == self._looks and floor == wanted

    def _seen(self, priority: int, first_in: int, last_in: int, taken: int) -> bool:
        if not self._to_show or self._to_show.pop(0) != priority:
            return False
        if first_in + last_in > taken:
            self._to_show, self._waits = [], priority
        return True


def source_suspect(told: Told, verdict: Verdict) -> int | None:
    """A source's lane has its stimuli in order, each with the records that fit it."""
    if verdict.kind == "whole":
        return told.order.against[0] if told.order.against else None
    lane = verdict.numbers[0]
    number = lane - (len(told.system.objects) if told.journal.kernel == PORT else 0)
    lines = told.stimuli[number - 1] if 1 <= number <= len(told.stimuli) else []
    records = told.of_lane(lane)
    stimulus, look = 0, 0
    for place, at in enumerate(records):
        word, numbers = at.record.word, at.record.numbers
        if number < 1 or numbers[0] != 0 or not stimulus and word != "stim":
            return at.place
        if word == "stim":
            stimulus += 1
            if numbers[1] != stimulus or numbers[2] < look or stimulus > len(lines):
                return at.place
            look = numbers[2]
        elif not _fits(at.record, lines[stimulus - 1], records[place - 1], told):
            return at.place
    return None


#: Which records a stimulus of each kind may have.
_OF_KIND = {
    "post": {"new", "inc", "post", "full", "short", "dec", "back", "assert", "spill"},
    "publish": {"new", "inc", "pub", "post", "short", "dec", "back", "assert", "spill"},
    "tick": {"idle", "tick", "fire", "post", "assert", "spill"},
    "settle": {"settle", "seen", "spill"},
}


def _fits(record: Record, line: str, before: At, told: Told) -> bool:
    kind, *rest = line.split(" ")
    word, numbers = record.word, record.numbers
    if word not in _OF_KIND[kind]:
        return False
    named = {entry.name: entry.priority for entry in told.system.objects}
    if kind == "post" and word in ("post", "full") and numbers[1] != named.get(rest[0]):
        return False
    if kind == "tick" and word in ("idle", "tick", "fire"):
        number = numbers[1]
        events = told.system.time_events
        return 1 <= number <= len(events) and events[number - 1].timer.rate == int(rest[0])
    if word == "new":
        event = rest[1] if kind == "post" else rest[0]
        return re.sub(" ", "", Names(told.system).event(numbers[5], numbers[6:])) == event
    if word == "seen" and before.record.word == "settle":
        return numbers[1] == min(told.objects, default=0)
    return True
