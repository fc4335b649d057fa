"""Where a lane may stop: before a step or a stimulus, and in a step behind a whole action, also behind a post of a publication.

A start doesn't stop in its middle, nor does a step behind its take alone, or within its release. What isn't sure counts as no place
to stop: an exit or an entry is no action, and a flush is whole where something follows it.
"""

from typing import NamedTuple

from .records import STIM_POST, STIM_TICK, Raw
from .told import Told

#: Records that are the last of a whole action, whatever stands before them.
_ENDS_ACTION = {
    "say", "post", "short", "nodefer", "norecall", "defer", "sub", "unsub", "same", "arm", "disarm", "rearm", "idle",
}
_ON_REFERENCES = {"flush", "dec", "back"}

#: How many references each `dec` leaves, by pool, block and number.
Left = dict[tuple[int, ...], int]


class Stop(NamedTuple):
    """How many records of a lane are kept, and where the step begins that is broken off there, or -1."""

    kept: int
    step: int


def references_left(lanes: dict[int, list[Raw]]) -> Left:
    operations = [raw for lane in lanes.values() for raw in lane if raw.word in ("inc", "dec")]
    standing: dict[tuple[int, ...], int] = {}
    left: Left = {}
    for raw in sorted(operations, key=lambda raw: raw.number):
        standing[raw.values] = standing.get(raw.values, 0) + (1 if raw.word == "inc" else -1)
        if raw.word == "dec":
            left[*raw.values, raw.number] = standing[raw.values]
    return left


class ObjectStops:
    """Goes over an object's records, and keeps the last place to stop."""

    def __init__(self, left: Left):
        self._left = left
        self._stop = 0
        self._step = -1
        self._is_static = self._is_done = False
        self._is_flush = self._is_recall = False
        self._former = ""

    def last(self, raws: list[Raw]) -> Stop:
        for at, raw in enumerate(raws):
            self._take(at, raw)
            self._former = raw.word
        return Stop(self._stop, self._step if self._stop > self._step else -1)

    def _take(self, at: int, raw: Raw) -> None:
        if self._is_flush and raw.word not in _ON_REFERENCES:
            self._is_flush = False
            self._stop = at
        if raw.word == "took":
            self._stop = self._step = at
            self._is_static = raw.values[0] == 0
            self._is_done = self._is_recall = False
        elif raw.word in ("nil", "seen") or raw.word == "done" and (self._step < 0 or self._is_static):
            self._stop, self._step = at + 1, -1
        elif raw.word == "flush":
            self._is_flush = True
        elif raw.word == "recall":
            self._is_recall = True
        elif raw.word == "done":
            self._is_done = True
        elif self._step >= 0 and self._ends_action(raw, at):
            self._stop = at + 1
            self._step = -1 if self._is_done else self._step

    def _ends_action(self, raw: Raw, at: int) -> bool:
        """Whether this record of a step is the last of a whole action, or of the step's release."""
        match raw.word:
            case "handled": # it says which row was taken, and no record of a journal
                return self._stop == at
            case "lifo":
                is_whole = not self._is_recall or raw.values[0] == 0
                self._is_recall = False
                return is_whole
            case "full":
                return self._former != "inc"
            case "pub":
                return self._former != "inc" and raw.values[1] == 0
            case "dec":
                return not self._is_flush and self._left[*raw.values, raw.number] != 0
            case "back":
                return not self._is_flush
        return raw.word in _ENDS_ACTION


class SourceStops:
    """Whether the last stimulus of a source is whole. In one order a tick leaves no record of a time event that isn't armed, so it may be
    whole or not; `passes` says which of these counts."""

    def __init__(self, told: Told, left: Left, passes: bool):
        self._told = told
        self._left = left
        self._passes = passes

    def last(self, who: int) -> Stop:
        start = self._start_of_last(who)
        return Stop(len(self._told.lanes[who]) if self._is_whole(who, start) else start, -1)

    def is_last_whole(self, who: int) -> bool:
        return self._is_whole(who, self._start_of_last(who))

    def _start_of_last(self, who: int) -> int:
        raws = self._told.lanes.get(who, [])
        return next((at for at in reversed(range(len(raws))) if raws[at].word in ("stim", "settle")), 0)

    def _is_whole(self, who: int, start: int) -> bool:
        raws = self._told.lanes.get(who, [])[start:]
        if not raws or raws[0].word not in ("stim", "settle"):
            return False
        head, *rest = raws
        if head.word == "settle":
            return len(rest) == len(self._told.objects)
        if head.values[0] == STIM_TICK:
            return self._is_whole_tick(who, start, rest)
        if not rest:
            return False
        last = rest[-1]
        is_pooled = any(raw.word == "inc" for raw in rest)
        match last.word:
            case "dec":
                return self._left[*last.values, last.number] != 0
            case "post" if head.values[0] == STIM_POST:
                return True
            case "post" | "pub":
                members = next((raw.values[1] for raw in rest if raw.word == "pub"), 0)
                return not is_pooled and sum(raw.word == "post" for raw in rest) == members.bit_count()
            case "full":
                return not is_pooled
        return last.word in ("short", "back")

    def _is_whole_tick(self, who: int, start: int, rest: list[Raw]) -> bool:
        """Whether each time event of the rate has a record, or may have been passed over since it wasn't armed."""
        if rest and rest[-1].word == "fire":
            return False
        told = {raw.values[0] for raw in rest if raw.word in ("idle", "tick", "fire")}
        rate = self._told.lanes[who][start].values[1]
        return all(
            event.number in told or self._is_passed(who, start, event.number)
            for event in self._told.system.time_events if event.timer.rate == rate
        )

    def _is_passed(self, who: int, start: int, timer: int) -> bool:
        moments = self._told.moments
        if moments is None or not self._passes:
            return False
        before, behind = moments[who, start], moments[who, len(self._told.lanes[who])]
        return self._told.timers.idle_between(timer, before.get(timer, 0), behind.get(timer, 0)) is not None
