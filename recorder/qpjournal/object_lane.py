"""The lane of an object: its start and its steps."""

from .lane import Lane
from .queues import Entry
from .records import Raw
from .told import Told

#: Where a step ends for who looks for its row.
_ENDS = {"took", "nil", "begin"}


class ObjectLane(Lane):
    """Puts each step's `run` behind its take, looks up its row where the trace has none, and raises the ceiling around a
    publication where the trace doesn't."""

    def __init__(self, told: Told, who: int):
        super().__init__(told, who)
        self._path: list[int] = []
        self._ceilings: list[int] = []
        self._posts_left = 0
        self._nil_shown = -1

    def write_all(self) -> None:
        raws = self._told.lanes.get(self._who, [])
        is_raised = False
        for at, raw in enumerate(raws):
            if is_raised and not self._posts_left: # not before there is a next record: a lane may stop behind the last post
                self.put("unlock", self._object, self._ceilings.pop())
                is_raised = False
            self.write(at, raw)
            if raw.word == "took":
                self._write_run(raws, at)
            elif raw.word == "pub":
                self._raise_ceiling(raw.values[1], raws[at + 1:at + 2])
                is_raised = self._posts_left > 0
            elif raw.word == "post" and self._posts_left:
                self._posts_left -= 1
        self.close()

    def _done(self, at: int, raw: Raw) -> None:
        self.close()
        self.put("done", self._object)

    def _took(self, at: int, raw: Raw) -> None:
        self._due = []
        super()._took(at, raw)

    def _nil(self, at: int, raw: Raw) -> None:
        """The same queue, found empty once more, isn't told."""
        if raw.number != self._nil_shown:
            self.put("nil", self._object, *self._counts(self._object, raw))
        self._nil_shown = raw.number

    # States and rows.

    def _enter(self, at: int, raw: Raw) -> None:
        self._path.append(raw.values[0])
        self._plain(at, raw)

    def _exit(self, at: int, raw: Raw) -> None:
        if raw.values[0] in self._path:
            self._path.remove(raw.values[0])
        self._plain(at, raw)

    def _no_init(self, at: int, raw: Raw) -> None:
        """The state that was asked has no initial transition."""
        self.lines.pop()

    def _run(self, at: int, raw: Raw) -> None:
        """It stands behind the take."""

    _handled = _run

    def _write_run(self, raws: list[Raw], took: int) -> None:
        handled = None
        for at in range(took + 1, len(raws)):
            raw = raws[at]
            if raw.word in _ENDS:
                break
            if raw.word == "run":
                self.put("run", self._object, *raw.values)
                return
            if raw.word == "none":
                return
            if raw.word == "handled":
                handled = raw.values[0]
        if handled is None and not any(raw.word not in _ENDS for raw in raws[took + 1:took + 2]):
            return
        self.put("run", self._object, *self._row(handled))

    def _row(self, handled: int | None) -> tuple[int, int]:
        """The state that handles the step's event, and the first of its rows for it."""
        entry = self._step or Entry(0, 0)
        found = self._candidates(entry.signal, handled)
        if len(found) > 1:
            where = f"state {handled} has" if handled is not None else "the states that it is in have"
            self._told.notes.append(
                f"object {self._object}: {where} {len(found)} rows for signal {entry.signal}; QPR_RUN has to "
                "say which one is taken, and the first is written"
            )
        return found[0] if found else (handled or (self._path[-1] if self._path else 0), 0)

    def _candidates(self, signal: int, handled: int | None) -> list[tuple[int, int]]:
        """The rows for a signal in the state that handles it, or, where that isn't known, in all that the object is in."""
        states = self._path[::-1] if handled is None else [handled]
        return [(state, row) for state in states for row in self._rows(state, signal)]

    def _rows(self, state: int, signal: int) -> list[int]:
        states = self._told.objects[self._object].chart.states
        if not 0 < state <= len(states):
            return []
        return [number for number, row in enumerate(states[state - 1].rows, 1) if row.on.number == signal]

    # Ceilings.

    def _lock(self, at: int, raw: Raw) -> None:
        self._ceilings.append(raw.values[0])
        self._plain(at, raw)

    def _unlock(self, at: int, raw: Raw) -> None:
        if self._ceilings:
            self._ceilings.pop()
        self._plain(at, raw)

    def _raise_ceiling(self, members: int, following: list[Raw]) -> None:
        if not members or following and following[0].word == "lock":
            return
        former = self._ceilings[-1] if self._ceilings else 0
        self.put("lock", self._object, max(former, members.bit_length()))
        self._ceilings.append(former)
        self._posts_left = members.bit_count()
