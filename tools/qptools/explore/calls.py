"""What posts, forwards and publications do to words, one record at a time, of an object or of a source."""

from abc import ABC, abstractmethod
from typing import NamedTuple

from qpviewer.system_parts import Signal, System

from .book import AGAIN, FRESH
from .spot import ASSERTED, START, Draft, Entry, Stage


class Told(NamedTuple):
    """What a move tells of itself: `full`, `short` or `nodefer` of a lane, or an assertion's code."""

    word: str
    lane: int
    code: int = 0


class Asserted(Exception):
    """A call asserts with a code, and with the numbers that its record states."""

    def __init__(self, code: int, *numbers: int):
        super().__init__(code, *numbers)
        self.code, self.numbers = code, numbers


class Call(NamedTuple):
    """A `post`, `lifo`, `publish` or `forward`: the place of the object posted to; the signal and parameters of a new event, or the entry
    that is forwarded; margin and reserve."""

    word: str
    target: int
    signal: Signal | None
    params: tuple[int, ...]
    margin: int | None
    reserve: int | None
    entry: Entry | None


class Actor(ABC):
    """Who calls, over a state that is being changed: its lane, and the object's priority, 0 for a source."""

    def __init__(self, system: System, draft: Draft, lane: int, number: int):
        self.system, self.draft, self.lane, self.number = system, draft, lane, number
        self.told: list[Told] = []

    @property
    @abstractmethod
    def stage(self) -> Stage:
        """How far the call is."""

    @abstractmethod
    def stand(self, stage: Stage) -> None:
        """The call is so far."""

    @abstractmethod
    def answer(self, value: int) -> None:
        """The call is over."""

    @abstractmethod
    def publishes(self, members: tuple[int, ...]) -> None:
        """Posts to these, the highest first, begin."""

    @abstractmethod
    def may_move(self) -> bool:
        """Whether the lane has a move."""

    @abstractmethod
    def move(self) -> None:
        """The lane's move."""

    def tell(self, word: str, code: int = 0) -> None:
        self.told.append(Told(word, self.lane, code))

    def assert_(self, asserted: Asserted) -> None:
        """The lane stops; what it holds stays where it is."""
        self.tell("assert", asserted.code)
        if self.draft.book:
            self.draft.book.add(self.lane, "assert", self.number, asserted.code, *asserted.numbers)
        self.stand(Stage(ASSERTED, self.stage.entry))

    def release(self, entry: Entry, slot: str) -> None:
        """A reference was dropped, which the journal keeps in this slot; the last one gives the block back."""
        if self.draft.book:
            self.draft.book.drop(self.lane, self.number, entry, slot)
        if entry.block and not self.draft.holders(entry):
            self.draft.free[entry.pool] += 1

    def claim(self, target: int, entry: Entry, margin: int | None, slot: str) -> bool:
        """An entry of a queue; false where the margin refuses it."""
        queue, owner, book = self.draft.queues[target], self.system.objects[target], self.draft.book
        room = owner.queue + 1 - len(queue)
        if room > (margin or 0):
            self.draft.queues[target] = (*queue, entry)
            if book:
                book.post(self.lane, self.number, owner.priority, entry, slot)
            return True
        if margin is None:
            raise Asserted(1, *self.counts(target))
        self.tell("full")
        if book:
            book.full(self.lane, self.number, owner.priority, margin)
        return False

    def counts(self, target: int) -> tuple[int, ...]:
        """An object and the counts of its queue, where a journal is written."""
        priority = self.system.objects[target].priority
        return (priority, *self.draft.book.counts(priority)) if self.draft.book else ()

    def unpublish(self) -> None:
        """The publisher's own reference is what is left; a static event has none."""
        if self.stage.entry:
            self.stand(Stage("unpublish", self.stage.entry))
        else:
            self.answer(1)


def proceed(actor: Actor, call: Call) -> None:
    """The next record of a call."""
    match actor.stage.word:
        case "begin" if call.signal and not call.signal.is_static:
            _give(actor, call)
        case "begin" | "claim":
            _publish(actor, call) if call.word == "publish" else _claim(actor, call)
        case "members":
            _post_to_next(actor, call)
        case "drop" | "unpublish" as word:
            entry = actor.stage.entry
            actor.stand(START)
            assert entry
            actor.release(entry, FRESH)
            actor.answer(int(word == "unpublish"))


def _give(actor: Actor, call: Call) -> None:
    assert call.signal
    params = call.signal.params
    pool = next(place for place, pool in enumerate(actor.system.pools) if pool.size >= params)
    free = actor.draft.free[pool]
    if free > (call.reserve or 0):
        actor.draft.free[pool] -= 1
        entry = Entry(actor.draft.new_block(), pool, call.signal.number, call.params)
        actor.stand(Stage("claim", entry))
        if actor.draft.book:
            actor.draft.book.new(actor.lane, actor.number, entry)
    elif call.reserve is None:
        book = actor.draft.book
        raise Asserted(2, *((pool + 1, book.shown("pool", pool), 0) if book else ()))
    else:
        actor.tell("short")
        if actor.draft.book:
            actor.draft.book.short(actor.lane, actor.number, pool, call.reserve)
        actor.answer(0)


def _claim(actor: Actor, call: Call) -> None:
    made = actor.stage.entry
    entry = call.entry or made or Entry(0, 0, call.signal.number if call.signal else 0, ())
    book = actor.draft.book
    if book and call.entry:
        book.refer(actor.lane, actor.number, call.entry, AGAIN)
    slot = AGAIN if call.entry else FRESH
    if call.word == "lifo":
        queue = actor.draft.queues[call.target]
        if len(queue) > actor.system.objects[call.target].queue:
            raise Asserted(5, *actor.counts(call.target))
        actor.draft.queues[call.target] = (entry, *queue)
        if book:
            book.lifo(actor.lane, actor.number, entry, slot)
        actor.answer(1)
    elif actor.claim(call.target, entry, call.margin, slot):
        actor.answer(1)
    elif made:
        actor.stand(Stage("drop", made))
    else:
        if book and call.entry:
            book.drop(actor.lane, actor.number, call.entry, AGAIN)
        actor.answer(0)


def _publish(actor: Actor, call: Call) -> None:
    assert call.signal
    members = tuple(place for place in reversed(range(len(actor.draft.lanes))) if actor.draft.sets[call.signal.number] >> place & 1)
    if book := actor.draft.book:
        bits = sum(1 << actor.system.objects[place].priority - 1 for place in members)
        book.add(actor.lane, "pub", actor.number, call.signal.number, book.shown("signal", call.signal.number), bits)
    actor.stand(Stage("members", actor.stage.entry, members))
    if members:
        actor.publishes(members)
    else:
        actor.unpublish()


def _post_to_next(actor: Actor, call: Call) -> None:
    assert call.signal
    stage = actor.stage
    entry = stage.entry or Entry(0, 0, call.signal.number, ())
    if actor.draft.book:
        actor.draft.book.refer(actor.lane, actor.number, entry, AGAIN)
    actor.claim(stage.left[0], entry, None, AGAIN)
    actor.stand(stage._replace(left=stage.left[1:]))
