"""The moves of a source."""

from typing import TYPE_CHECKING

from .book import FRESH
from .calls import Actor, Asserted, Call, proceed
from .spot import ASSERTED, BEGIN, START, Draft, Entry, Source, Stage
from .stimuli import Stimulus

if TYPE_CHECKING:
    from .machine import Machine


class Stimulating(Actor):
    """A source."""

    def __init__(self, machine: "Machine", draft: Draft, place: int):
        super().__init__(machine.system, draft, machine.first_source + place, 0)
        self._machine, self._place = machine, place

    @property
    def _at(self) -> Source:
        return self.draft.sources[self._place]

    def _next(self) -> Stimulus | None:
        stimuli = self._machine.stimuli[self._place]
        return stimuli[self._at.place] if self._at.place < len(stimuli) else None

    @property
    def stage(self) -> Stage:
        return self._at.stage

    def stand(self, stage: Stage) -> None:
        self.draft.sources[self._place] = self._at._replace(stage=stage)

    def answer(self, value: int) -> None:
        self.draft.sources[self._place] = Source(self._at.place + 1, 0, START)
        self.note_begun()

    def note_begun(self) -> None:
        """The `stim` of the next stimulus, where a journal is written."""
        if self.draft.book and self._next():
            self.draft.book.add(self.lane, "stim", 0, self._at.place + 1, 0)

    def publishes(self, members: tuple[int, ...]) -> None:
        """A source has no ceiling."""

    def may_move(self) -> bool:
        following = self._next()
        if following is None or self.stage.word == ASSERTED:
            return False
        return following.word != "settle" or self._may_settle()

    def _may_settle(self) -> bool:
        return self._machine.is_over(self.draft) if self._machine.in_phases else self._machine.is_calm(self.draft)

    def move(self) -> None:
        try:
            self._record()
            self.go_on()
        except Asserted as asserted:
            self.assert_(asserted)

    def _record(self) -> None:
        following = self._next()
        assert following is not None
        match following.word:
            case "settle":
                if self.draft.book:
                    self.draft.book.settle(self.lane)
                self.answer(1)
            case "tick":
                self._tick(following)
            case word:
                signal = self._machine.system.signals[following.signal]
                proceed(self, Call(word, following.target, signal, following.params, following.margin, following.reserve, None))

    def _tick(self, following: Stimulus) -> None:
        """The next record of a tick: of a time event, or of the post behind one that fired."""
        number, book = following.timers[self._at.timer], self.draft.book
        event = self._machine.system.time_events[number]
        if self.stage.word == BEGIN:
            counter, interval = self.draft.timers[number]
            if counter == 1:
                self.draft.timers[number] = (interval, interval)
                self.stand(Stage("claim"))
                if book:
                    book.drawn(self.lane, "fire", 0, ("timer", number + 1), interval)
                return
            self.draft.timers[number] = (max(counter - 1, 0), interval)
            if book and counter:
                book.drawn(self.lane, "tick", 0, ("timer", number + 1), counter - 1)
            elif book:
                book.add(self.lane, "idle", 0, number + 1, book.shown("timer", number + 1))
        else:
            self.claim(self._machine.places[event.owner.name], Entry(0, 0, event.timer.signal.number, ()), None, FRESH)
        self.draft.sources[self._place] = self._at._replace(timer=self._at.timer + 1, stage=START)

    def go_on(self) -> None:
        """Ticks that are over are passed, and publications that have nobody left."""
        while (following := self._next()) and self.stage.word != ASSERTED:
            if following.word == "tick" and self._at.timer == len(following.timers):
                self.answer(1)
            elif self.stage.word == "members" and not self.stage.left:
                self.unpublish()
            else:
                return
