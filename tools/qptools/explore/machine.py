"""The moves of a system: each is one record on a shared word, and what its lane does alone behind it."""

from collections.abc import Iterator
from typing import NamedTuple

from qpviewer.system_parts import System

from .agenda import Agendas
from .book import Book
from .calls import Actor, Told
from .objects import Running
from .preempting import Preempting
from .sources import Stimulating
from .spot import ASSERTED, BEGIN, START, Draft, Entry, Kernel, Lane, Source, Spot
from .stimuli import stimulus_of

QK, PORT = "qk", "port"
#: More moves than it takes to come to an end.
MOST_MOVES = 100_000
_START = Entry(0, 0, 0, ())


class Endless(Exception):
    """A run doesn't come to an end."""


class Moved(NamedTuple):
    """A move: its lane in the journal, what it tells, and the state behind it."""

    lane: int
    told: tuple[Told, ...]
    spot: Spot


class Machine:
    """The states of a system with its stimuli, under `qk` or `port`."""

    def __init__(self, system: System, stimuli: list[list[str]], kernel: str, in_phases: bool = False):
        self.system, self.kernel, self.in_phases = system, kernel, in_phases
        self.is_qk = kernel == QK
        self.stimuli = [[stimulus_of(line, system) for line in lines] for lines in stimuli]
        made = {name: Agendas(chart) for name, chart in system.charts.items()}
        self.agendas = [made[owner.chart.name] for owner in system.objects]
        self.names = [sorted(owner.vars) for owner in system.objects]
        self.first_source = 1 if kernel == QK else 1 + len(system.objects)
        self.places = {owner.name: place for place, owner in enumerate(system.objects)}

    def lane_of(self, place: int) -> int:
        """The home lane of an object, by its place."""
        return 0 if self.is_qk else place + 1

    def first(self) -> Moved:
        """The state behind all starts, which come one by one in ascending priority."""
        draft, told = self.begun(None)
        return Moved(0, tuple(told), draft.frozen())

    def begun(self, book: Book | None) -> tuple[Draft, list[Told]]:
        """The same while it is changed, with what starts tell."""
        objects = self.system.objects
        lanes = [Lane(0, tuple(owner.vars[name] for name in names), 0, None, 0, 0, START) for owner, names in zip(objects, self.names)]
        first = Spot(
            tuple(pool.blocks for pool in self.system.pools), ((),) * len(objects), ((),) * len(objects), (0,) * (len(self.system.signals) + 4),
            ((0, 0),) * len(self.system.time_events), tuple(lanes), (Source(0, 0, START),) * len(self.stimuli), Kernel((), (), -1),
        )
        draft = Draft(first, book)
        told: list[Told] = []
        for place in range(len(objects)):
            draft.lanes[place] = draft.lanes[place]._replace(hand=_START)
            running = Running(self, draft, place, is_start=True)
            running.go_on()
            while draft.lanes[place].hand and draft.lanes[place].stage.word != ASSERTED:
                running.move()
            told += running.told
            if self.is_qk and draft.lanes[place].stage.word == ASSERTED:
                break
        if self.is_qk:
            draft.kernel = Kernel((), (), len(objects) - 1)
        for place in range(len(self.stimuli)):
            source = Stimulating(self, draft, place)
            source.note_begun()
            source.go_on()
        return draft, told

    def moves(self, spot: Spot) -> Iterator[Moved]:
        """The moves of each lane."""
        for number in range(self.first_source - (not self.is_qk) + len(spot.sources)):
            actor = self.actor(number, Draft(spot))
            if actor.may_move():
                actor.move()
                yield Moved(actor.lane, tuple(actor.told), actor.draft.frozen())

    def actor(self, number: int, draft: Draft) -> Preempting | Actor:
        """Who moves, by number from 0: the kernel under `qk`, the objects under `port`, and behind them the sources."""
        before = 1 if self.is_qk else len(draft.lanes)
        if number >= before:
            return Stimulating(self, draft, number - before)
        return Preempting(self, draft) if self.is_qk else Running(self, draft, number)

    def is_calm(self, spot: Spot | Draft) -> bool:
        """Whether all queues are empty, and no object is within a step; one that asserted does nothing more."""
        return not any(spot.queues) and all(lane.hand is None or lane.stage.word == ASSERTED for lane in spot.lanes)

    def is_over(self, spot: Spot | Draft) -> bool:
        """Whether nothing is left to be done but what waits until all is quiet, and all is."""
        return self.is_calm(spot) and all(source.place == len(lines) or lines[source.place].word == "settle"
                                          for source, lines in zip(spot.sources, self.stimuli))

    def is_end(self, spot: Spot) -> bool:
        """Whether a run may end here with 0."""
        done = all(source.place == len(lines) for source, lines in zip(spot.sources, self.stimuli))
        return done and self.is_calm(spot) and not self.is_stopped(spot)

    def go_to_end(self, draft: Draft) -> None:
        """Goes on until nothing is left to be done, or a lane has asserted. Raises `Endless` where neither comes."""
        before = 1 if self.is_qk else len(draft.lanes)
        lanes, sources = range(before), range(before, before + len(draft.sources))
        for _ in range(MOST_MOVES):
            rests = self.is_calm(draft)
            order = [*sources, *lanes] if rests else [*lanes, *sources]
            actor = next((actor for actor in (self.actor(number, draft) for number in order) if actor.may_move()), None)
            if self.is_stopped(draft) or actor is None:
                return
            actor.move()
        raise Endless

    def finish(self, draft: Draft) -> None:
        """Behind an assertion each other lane goes on to a place at which it may stop: behind its step or its stimulus; lane 0 of `qk`, to a look."""
        before = 1 if self.is_qk else len(draft.lanes)
        while self.is_qk and draft.kernel.row < 0 and self.actor(0, draft).may_move():
            self.actor(0, draft).move()
        for number in range(before if self.kernel == PORT else 0):
            while draft.lanes[number].hand is not None and self.actor(number, draft).may_move():
                self.actor(number, draft).move()
        for number, source in enumerate(draft.sources):
            begun = source.timer or source.stage.word != BEGIN
            while begun and draft.sources[number].place == source.place and self.actor(before + number, draft).may_move():
                self.actor(before + number, draft).move()

    def is_stopped(self, spot: Spot | Draft) -> bool:
        """Whether a lane has asserted."""
        return any(part.stage.word == ASSERTED for part in (*spot.lanes, *spot.sources))
