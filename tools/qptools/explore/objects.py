"""The moves of an object: in its start, within a step, or where it takes an event."""

from typing import TYPE_CHECKING

from qpviewer.actions import Action, Expr, value_of

from .agenda import Lock, Note, Point, Unlock
from .book import FRESH, HAND, RECALLED
from .calls import Actor, Asserted, Call, proceed
from .looks import look
from .spot import ASSERTED, START, Draft, Entry, Lane, Stage

if TYPE_CHECKING:
    from .machine import Machine

#: The largest ticks and interval of a time event.
MOST_TICKS = 65_535


class Running(Actor):
    """An object within its start or a step, or one that may take an event under `port`."""

    def __init__(self, machine: "Machine", draft: Draft, place: int, is_start: bool = False):
        super().__init__(machine.system, draft, machine.lane_of(place), machine.system.objects[place].priority)
        self._machine, self._place, self._is_start = machine, place, is_start

    @property
    def _at(self) -> Lane:
        return self.draft.lanes[self._place]

    def _set(self, **parts: object) -> None:
        self.draft.lanes[self._place] = self._at._replace(**parts)  # type: ignore[arg-type]

    @property
    def stage(self) -> Stage:
        return self._at.stage

    def stand(self, stage: Stage) -> None:
        self._set(stage=stage)

    def may_move(self) -> bool:
        return self.stage.word != ASSERTED and (self._at.hand is not None or bool(self.draft.queues[self._place]))

    def move(self) -> None:
        """The record that comes next, and what is done alone behind it."""
        try:
            self._record()
            self.go_on()
        except Asserted as asserted:
            self.assert_(asserted)

    def _record(self) -> None:
        lane = self._at
        if lane.hand is None:
            self.take()
            return
        tasks = self._machine.agendas[self._place].all[lane.agenda].tasks
        if lane.done == len(tasks):
            self._set(hand=None)
            self.release(lane.hand, HAND)
            self._end_step()
            return
        action = tasks[lane.done]
        assert isinstance(action, Action)
        self._do(action)

    def take(self) -> None:
        """The first entry of the queue is taken, and its row chosen."""
        entry, *left = self.draft.queues[self._place]
        self.draft.queues[self._place] = tuple(left)
        lane = self._at
        self._set(hand=entry)
        if self.draft.book:
            self.draft.book.took(self.lane, self.number, entry)
        for handler in self._machine.agendas[self._place].handlers(lane.leaf, entry.signal):
            if handler.guard is None or self._value(handler.guard):
                self.note("run", handler.state, handler.row)
                self._set(agenda=handler.agenda, done=0, stage=START)
                return
        self.note("none")
        self._set(agenda=lane.leaf, done=0, stage=START)

    def note(self, word: str, *numbers: int) -> None:
        """A record of the object's own, where a journal is written."""
        if self.draft.book:
            self.draft.book.add(self.lane, word, self.number, *numbers)

    def _value(self, tree: Expr) -> int:
        lane, place = self._at, self._place
        names = dict(zip(self._machine.names[place], lane.vars))
        names |= {"ok": lane.ok, "me": self._machine.system.objects[place].priority}
        if lane.hand:
            names |= {f"p{number}": value for number, value in enumerate(lane.hand.params, 1)}
        return value_of(tree, names)

    def answer(self, value: int) -> None:
        """The action is done, with this answer."""
        self._set(ok=value)
        self._pass()

    def _pass(self) -> None:
        self._set(done=self._at.done + 1, stage=START)

    def go_on(self) -> None:
        """What the object does alone: up to the next record on a word, or the next row of looks that sees something."""
        while self._at.hand is not None and self.stage.word != ASSERTED and self.draft.kernel.row < 0:
            if not self._go_on():
                return

    def _go_on(self) -> bool:
        """One task done alone; false where a record on a word comes next."""
        lane = self._at
        tasks = self._machine.agendas[self._place].all[lane.agenda].tasks
        if lane.done == len(tasks):
            assert lane.hand is not None
            if lane.hand.block:
                return False
            self._end_step()
            return True
        match tasks[lane.done]:
            case Note(word, state):
                self.note(word, *((state,) if state else ()))
                self._pass()
            case Point():
                self._pass()
                self._look()
            case Lock(ceiling):
                self.raise_ceiling(ceiling)
                self._pass()
            case Unlock():
                self.lower_ceiling()
                self._pass()
            case Action() as action:
                return self._alone(action)
        return True

    def _alone(self, action: Action) -> bool:
        """An action, as far as it touches no shared word."""
        lane, deferred = self._at, self.draft.deferred[self._place]
        match action.word:
            case "set":
                values = dict(zip(self._machine.names[self._place], lane.vars)) | {action.name: self._value(action.values[0])}
                self._set(vars=tuple(values[name] for name in self._machine.names[self._place]))
                self._pass()
            case "say":
                self.note("say", self._value(action.values[0]))
                self._pass()
            case "defer" if len(deferred) < self._machine.system.objects[self._place].defer:
                assert lane.hand is not None
                self.draft.deferred[self._place] = (*deferred, lane.hand)
                if self.draft.book:
                    self.draft.book.defer(self.lane, self.number, lane.hand)
                self.answer(1)
            case "recall" if not deferred:
                self.note("norecall")
                self.answer(0)
            case "flush" if not deferred:
                self.answer(lane.stage.left[0] if lane.stage.left else 0)
            case "flush" if not deferred[0].block or self._keeps_another(deferred[0]):
                self._flush()
            case "publish" if lane.stage.word == "members" and not lane.stage.left:
                self.lower_ceiling()
                self.unpublish()
            case "publish" if lane.stage.word == "unpublish" and lane.stage.entry and self._keeps(lane.stage.entry, deferred):
                self._do(action)
            case _:
                return False
        return True

    def _keeps_another(self, entry: Entry) -> bool:
        """Whether the object keeps another reference of a deferred entry's block, which nobody else can drop."""
        return self._keeps(entry, self.draft.deferred[self._place][1:])

    def _keeps(self, entry: Entry, deferred: tuple[Entry, ...]) -> bool:
        """Whether its step, these deferred entries or its queue refer to an entry's block."""
        places = (self._at.hand, *deferred, *self.draft.queues[self._place])
        return any(other is not None and other.block == entry.block for other in places)

    def _flush(self) -> None:
        first, *left = self.draft.deferred[self._place]
        self.draft.deferred[self._place] = tuple(left)
        if self.draft.book:
            self.draft.book.undefer(self.lane, self.number, "flush", first)
        self.release(first, RECALLED)
        dropped = self.stage.left[0] if self.stage.left else 0
        self.stand(Stage("flush", None, (dropped + 1,)))

    def _do(self, action: Action) -> None:
        """The next record of an action on a word."""
        place, draft, system = self._place, self.draft, self._machine.system
        match action.word:
            case "post" | "lifo" | "publish" | "forward":
                self._call(action)
            case "defer":
                self.tell("nodefer")
                self.note("nodefer")
                self.answer(0)
            case "recall":
                first, *left = draft.deferred[place]
                if len(draft.queues[place]) > system.objects[place].queue:
                    if book := draft.book:
                        book.undefer(self.lane, self.number, "recall", first)
                        book.refer(self.lane, self.number, first, FRESH)
                    raise Asserted(5, *self.counts(place))
                draft.deferred[place] = tuple(left)
                draft.queues[place] = (first, *draft.queues[place])
                if book := draft.book:
                    book.undefer(self.lane, self.number, "recall", first)
                    book.refer(self.lane, self.number, first, FRESH)
                    book.lifo(self.lane, self.number, first, FRESH)
                    book.drop(self.lane, self.number, first, RECALLED)
                self.answer(1)
            case "flush":
                self._flush()
            case "subscribe" | "unsubscribe":
                signal, bit = system.signals[action.name].number, 1 << place
                former = draft.sets[signal]
                draft.sets[signal] = former | bit if action.word == "subscribe" else former & ~bit
                if book := draft.book:
                    if draft.sets[signal] != former:
                        book.drawn(self.lane, "sub" if action.word == "subscribe" else "unsub", self.number, ("signal", signal))
                    else:
                        self.note("same", signal, book.shown("signal", signal))
                self.answer(int(draft.sets[signal] != former))
            case _:
                self._time(action)

    def _call(self, action: Action) -> None:
        members_before = self.stage.left if self.stage.word == "members" else None
        target = self._place if action.word == "lifo" or action.target == "me" else self._machine.places.get(action.target, 0)
        if action.word == "forward":
            proceed(self, Call("forward", target, None, (), action.margin, None, self._at.hand))
        else:
            signal = self._machine.system.signals[action.name]
            params = tuple(self._value(tree) for tree in action.values)
            proceed(self, Call(action.word, target, signal, params, action.margin, action.reserve, None))
        if members_before is not None:
            self._look()

    def _time(self, action: Action) -> None:
        number = next(event.number - 1 for event in self._machine.system.time_events
                      if event.owner is self._machine.system.objects[self._place] and event.timer.name == action.name)
        counter, interval = self.draft.timers[number]
        values = [self._value(tree) for tree in action.values]
        if values and not (1 <= values[0] <= MOST_TICKS and all(0 <= value <= MOST_TICKS for value in values[1:])):
            raise Asserted(4, number + 1, values[0], values[1] if action.word == "arm" else 0)
        match action.word:
            case "arm":
                if counter:
                    raise Asserted(3, number + 1, self.draft.book.shown("timer", number + 1) if self.draft.book else 0, counter)
                self.draft.timers[number] = (values[0], values[1])
                if book := self.draft.book:
                    book.drawn(self.lane, "arm", self.number, ("timer", number + 1), *values)
                self.answer(1)
            case "rearm":
                self.draft.timers[number] = (values[0], interval)
                if book := self.draft.book:
                    book.drawn(self.lane, "rearm", self.number, ("timer", number + 1), counter, values[0])
                self.answer(int(counter != 0))
            case _:
                self.draft.timers[number] = (0, interval)
                if book := self.draft.book:
                    if counter:
                        book.drawn(self.lane, "disarm", self.number, ("timer", number + 1), counter)
                    else:
                        self.note("idle", number + 1, book.shown("timer", number + 1))
                self.answer(int(counter != 0))

    # Steps and looks of `qk`.

    def _end_step(self) -> None:
        lane = self._at
        leaf = self._machine.agendas[self._place].all[lane.agenda].leaf
        self._set(leaf=leaf, hand=None, agenda=0, done=0, stage=START)
        if self._machine.is_qk and not self._is_start:
            kernel = self.draft.kernel
            self.draft.kernel = kernel._replace(running=kernel.running[:-1])
            look(self._machine, self.draft)

    def _look(self) -> None:
        if self._machine.is_qk and not self._is_start:
            look(self._machine, self.draft)

    def publishes(self, members: tuple[int, ...]) -> None:
        if members:
            self.raise_ceiling(self._machine.system.objects[members[0]].priority)

    def raise_ceiling(self, ceiling: int) -> None:
        if self.draft.book:
            self.draft.book.lock(self.lane, self.number, ceiling)
        if self._machine.is_qk and not self._is_start:
            kernel = self.draft.kernel
            self.draft.kernel = kernel._replace(ceilings=(*kernel.ceilings, max(ceiling, *kernel.ceilings, 0)))

    def lower_ceiling(self) -> None:
        if self.draft.book:
            self.draft.book.unlock(self.lane, self.number)
        if self._machine.is_qk and not self._is_start:
            kernel = self.draft.kernel
            self.draft.kernel = kernel._replace(ceilings=kernel.ceilings[:-1])
