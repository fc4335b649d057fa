"""The search: every state that some order reaches, each once, and what they come to."""

from collections.abc import Callable, Iterator
from dataclasses import dataclass, field
from typing import NamedTuple

from qpviewer.journal import PORT as PORT_NUMBER
from qpviewer.journal import QK as QK_NUMBER

from .book import Book
from .calls import Told
from .machine import QK, Machine
from .spot import Spot


#: The ends that a journal states.
DONE, STOPPED = 0, 3


class Outcome(NamedTuple):
    """How a run that ends with 0 leaves things: of each object its state, variables and how many events it keeps deferred; the free blocks."""

    states: tuple[int, ...]
    vars: tuple[tuple[int, ...], ...]
    deferred: tuple[int, ...]
    free: tuple[int, ...]


class Bounded(Exception):
    """There are more states than were allowed."""


@dataclass
class Explored:
    """All that was reached: how many states and moves; the outcomes of runs that end with 0, each with the place of a state; what moves told,
    each with the place of the first state behind one; for each state the place of the one before it and the lane that moved."""

    states: int = 0
    moves: int = 0
    outcomes: dict[Outcome, int] = field(default_factory=dict)
    told: dict[Told, int] = field(default_factory=dict)
    before: list[tuple[int, int]] = field(default_factory=list)

    @property
    def assertions(self) -> set[tuple[int, int]]:
        """The code of each assertion with its lane."""
        return {(told.code, told.lane) for told in self.told if told.word == "assert"}

    def ended(self) -> list[int]:
        """The place of a state for each outcome, and for each assertion of a lane."""
        return [*self.outcomes.values(), *(place for told, place in self.told.items() if told.word == "assert")]

    def ends(self) -> int:
        """How many outcomes there are, where all ends by an assertion are one."""
        return len(self.outcomes) + bool(self.assertions)

    def path(self, place: int) -> list[int]:
        """The lanes that move on the way to a state."""
        lanes: list[int] = []
        while place:
            place, lane = self.before[place]
            lanes.append(lane)
        return lanes[::-1]


def explore(machine: Machine, most: int, look: Callable[[int, tuple[Told, ...], Spot], None] | None = None,
            found: Explored | None = None) -> Explored:
    """Everything that orders may come to. Raises `Bounded` where there are more states than `most`. `look` is told of each move: the place of the
    state behind it, what the move told, and the state. `found` takes what is found, also where the search is broken off."""
    found = Explored() if found is None else found
    for place, told, spot in _walk(machine, most, found):
        if look:
            look(place, told, spot)
        for fact in told:
            found.told.setdefault(fact, place)
        if machine.is_end(spot):
            found.outcomes.setdefault(outcome_of(spot), place)
    return found


def _walk(machine: Machine, most: int, found: Explored) -> Iterator[tuple[int, tuple[Told, ...], Spot]]:
    """Each move, with the place of the state behind it; the first state comes of none."""
    start = machine.first()
    places: dict[Spot, int] = {start.spot: 0}
    spots = [start.spot]
    found.before.append((0, 0))
    found.states = 1
    yield 0, start.told, start.spot
    at = 0
    while at < len(spots):
        for lane, told, spot in machine.moves(spots[at]):
            found.moves += 1
            place = places.setdefault(spot, len(spots))
            if place == len(spots):
                if place == most:
                    raise Bounded
                spots.append(spot)
                found.before.append((at, lane))
                found.states = len(spots)
            yield place, told, spot
        at += 1


def journal_of(machine: Machine, found: Explored, place: int, budget: int = 100_000) -> str:
    """The journal of the path to a state. Where the run may not end there it goes on to an end. Raises `Endless` where that doesn't come."""
    is_qk = machine.kernel == QK
    kernel = QK_NUMBER if is_qk else PORT_NUMBER
    book = Book(machine.system, machine.first_source + len(machine.stimuli))
    draft, _ = machine.begun(book)
    for lane in found.path(place):
        actor = machine.actor(lane if is_qk else lane - 1, draft)
        assert actor.may_move()
        actor.move()
    machine.go_to_end(draft)
    if not machine.is_stopped(draft):
        if is_qk:
            book.finish_row([owner.priority for owner in reversed(machine.system.objects[:draft.kernel.row + 1])])
        return book.text(kernel, budget, DONE)
    machine.finish(draft)
    for lane in range(machine.first_source, len(book.lanes)):
        book.withdraw_stimulus(lane)
    return book.text(kernel, budget, STOPPED)


def outcome_of(spot: Spot) -> Outcome:
    """What a state at rest comes to."""
    return Outcome(tuple(lane.leaf for lane in spot.lanes), tuple(lane.vars for lane in spot.lanes), tuple(map(len, spot.deferred)), spot.free)
