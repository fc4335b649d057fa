"""The lane of a source: its stimuli, and the lines that say them."""

from .lane import Lane
from .records import STIM_TICK, Raw
from .stimulus import StimulusLines
from .told import Told


class SourceLane(Lane):
    """Writes each stimulus as a line too, and brings a tick's time events into ascending order.

    Where there is one order it adds those that aren't armed: that a tick passed over them tells no record. Where there is none,
    it isn't known when that was, so the framework has to write them.
    """

    def __init__(self, told: Told, who: int):
        super().__init__(told, who)
        self.stimuli: list[str] = []
        self._lines = StimulusLines(told, who)

    def write_all(self) -> None:
        raws = list(enumerate(self._told.lanes.get(self._who, [])))
        starts = [at for at, raw in raws if raw.word in ("stim", "settle")] + [len(raws)]
        for at, raw in raws[:starts[0]]:
            self.write(at, raw)
        for start, end in zip(starts, starts[1:]):
            self._stimulus(raws[start][1], raws[start:end], start, end)
        self.close()

    def _stimulus(self, head: Raw, raws: list[tuple[int, Raw]], start: int, end: int) -> None:
        self.close()
        self._due = []
        self.stimuli.append(self._lines.line(head, [raw for _, raw in raws]))
        self.put("stim", 0, len(self.stimuli), 0)
        if head.word == "settle":
            self.write(*raws[0])
        if head.word == "stim" and head.values[0] == STIM_TICK:
            self._write_tick(head.values[1], raws[1:], start, end)
        else:
            for at, raw in raws[1:]:
                self.write(at, raw)

    # Ticks.

    def _write_tick(self, rate: int, raws: list[tuple[int, Raw]], start: int, end: int) -> None:
        groups: list[tuple[int, list[tuple[int, Raw]]]] = []
        for at, raw in raws:
            if raw.word in ("idle", "tick", "fire"):
                groups.append((raw.values[0], [(at, raw)]))
            elif groups:
                groups[-1][1].append((at, raw))
            else:
                self.write(at, raw)
        if moments := self._told.moments:
            before, behind = moments[self._who, start], moments[self._who, end]
            for timer in self._unarmed(rate, groups):
                least = before.get(timer, 0)
                shown = self._told.timers.idle_between(timer, least, behind.get(timer, 0))
                groups.append((timer, [(-1, Raw(self._who, "idle", (timer,), least if shown is None else shown))]))
        for _, group in sorted(groups, key=lambda group: group[0]):
            for at, raw in group:
                self.write(at, raw)

    def _unarmed(self, rate: int, groups: list[tuple[int, list[tuple[int, Raw]]]]) -> list[int]:
        """The time events of a rate that a tick passed over; behind an assertion none is reached."""
        told = {timer for timer, _ in groups}
        stopped = [timer for timer, group in groups if group[-1][1].word == "assert"]
        return [
            event.number for event in self._told.system.time_events
            if event.timer.rate == rate and event.number not in told and event.number < min(stopped, default=65)
        ]

