"""The first record of an object that doesn't fit those before it: for verdicts on objects."""

from .foreign import first_foreign
from .journal import PORT, Record
from .sites import At, Told
from .system_parts import Object, State
from .tree import Move, path_of, row_moves, start_moves
from .verdict import Verdict
from .words_told import ENTRY_AT

#: What may stand right behind an `inc` among the records of its object.
_BEHIND_INC = {"post", "lifo", "full", "defer", "pub", "assert"}
#: Records that stand between steps, beside takes and releases.
_BETWEEN = {"begin", "took", "nil", "seen", "dec", "back", "spent", "spill"}
_MOVES = {"exit", "enter", "init"}


def shape_suspect(told: Told, verdict: Verdict) -> int | None:
    """An object's records are its start and then whole steps; each call has its records."""
    priority = verdict.numbers[0]
    if (stray := _stray(told, priority)) is not None:
        return stray
    own = told.of_object(priority)
    foreign = first_foreign((at.record for at in own), told.system)
    if foreign:
        return own[foreign.place].place
    shape = _Shape(told)
    for place, at in enumerate(own):
        behind = own[place + 1].record if place + 1 < len(own) else None
        if not shape.takes(at, behind):
            return at.place
    return None


def _stray(told: Told, priority: int) -> int | None:
    """Under `port`, a record that stands in another object's lane, or one of another object in this lane."""
    if told.journal.kernel != PORT:
        return None
    home = told.home(priority)
    objects = len(told.system.objects)
    for at in told.records:
        owner = at.record.numbers[0]
        if at.lane == home and owner not in (priority, 0) or 1 <= at.lane <= objects and at.lane != home and owner == priority:
            return at.place
    return None


class _Shape:
    """How far the records of an object follow the shape of a start and of steps."""

    def __init__(self, told: Told):
        self._is_port = told.journal.kernel == PORT
        self._is_quiet = told.journal.status == 0
        self._budget = told.journal.budget
        self._takes = 0
        self._standing: dict[tuple[int, ...], set[int]] = {}
        self._last_use = _uses(told)
        self._inside = False
        self._before: Record | None = None
        self._shown: set[tuple[str, tuple[int, ...]]] = set()
        self._ceilings = [0]

    def takes(self, at: At, behind: Record | None) -> bool:
        """Whether the next record fits those before it and the one right behind it, none at the end."""
        record, before = at.record, self._before
        word, numbers = record.word, record.numbers
        fits = before is None or before.word != "assert"
        fits = fits and (self._inside or word in _BETWEEN or word == "assert")
        match word:
            case "begin":
                fits = fits and before is None
                self._inside = True
            case "took":
                fits = fits and not self._inside and (behind is None or behind.word in ("run", "none", "spill"))
                fits = fits and not (behind is None and not self._ends_cut())
                self._inside, self._takes = True, self._takes + 1
            case "run" | "none":
                fits = fits and before is not None and before.word == "took"
            case "done":
                self._inside = False
            case "nil" | "seen":
                fits = fits and self._is_port and not self._inside and self._may_look(record)
            case "lock":
                self._ceilings.append(numbers[1])
            case "unlock":
                fits = fits and len(self._ceilings) > 1 and numbers[1] == self._ceilings[-2]
                del self._ceilings[1 if len(self._ceilings) == 1 else -1:]
            case "inc":
                fits = fits and (behind.word in _BEHIND_INC if behind else not self._is_quiet)
            case "post" | "lifo" | "defer":
                fits = fits and _has_reference(record, before)
            case "recall":
                fits = fits and (behind.word == "inc" if behind else not self._is_quiet)
            case "back":
                fits = fits and before is not None and before.word == "dec"
            case "dec":
                is_last = (at.place in self._last_use)
                fits = fits and is_last == (behind is not None and behind.word == "back")
        if behind is None and self._is_quiet:
            fits = fits and not self._inside and word != "assert"
        self._before = record
        return fits

    def _ends_cut(self) -> bool:
        return not self._is_quiet

    def _may_look(self, record: Record) -> bool:
        shown = record.word, record.numbers
        is_new = shown not in self._shown
        self._shown.add(shown)
        return is_new and (record.word == "nil" or self._takes == self._budget)


def _uses(told: Told) -> set[int]:
    """The places of each `dec` that leaves no reference of its block."""
    found: set[int] = set()
    for pool, entry in enumerate(told.system.pools, 1):
        for block in range(entry.blocks):
            standing = 0
            for touch in told.history(("block", pool, block)):
                standing += 1 if touch.record.word == "inc" else -1
                if not standing:
                    found.add(touch.place)
    return found


def _has_reference(record: Record, before: Record | None) -> bool:
    """Whether right before an entry of a pool goes into a list its reference was made."""
    place = ENTRY_AT[record.word]
    pool, block, reference = record.numbers[place:place + 3]
    return pool == 0 or before is not None and before.word == "inc" and before.numbers[1:] == (pool, block, reference)


def course_suspect(told: Told, verdict: Verdict) -> int | None:
    """What each step does to states is what its row says, and the row is one that may take the event."""
    priority = verdict.numbers[0]
    if priority not in told.objects:
        return None
    course = _Course(told, told.objects[priority])
    for at in told.records:
        course.learn(at.record)
        if at.lane == told.home(priority) and at.record.numbers[0] == priority and not course.takes(at.record):
            return at.place
    return None


class _Course:
    """Where an object is in its chart, and which moves are left in its step."""

    def __init__(self, told: Told, owner: Object):
        self._chart = owner.chart
        self._signals = {signal.number: signal for signal in told.system.signals.values()}
        self._events: dict[tuple[int, int], int] = {}
        self._state: State | None = None
        self._taken = 0
        self._moves: list[Move] = []

    def learn(self, record: Record) -> None:
        if record.word == "new":
            self._events[record.numbers[1], record.numbers[3]] = record.numbers[5]

    def takes(self, record: Record) -> bool:
        word, numbers = record.word, record.numbers
        if word == "begin":
            self._moves = start_moves(self._chart)
        elif word == "took":
            pool, block = numbers[4:6]
            self._taken = block if pool == 0 else self._events.get((pool, block), 0)
            self._moves = []
        elif word == "run":
            return self._run(numbers[1], numbers[2])
        elif word == "none":
            return not any(row.when is None for state in path_of(self._state) for row in self._rows(state))
        elif word in _MOVES:
            return self._move(word, numbers[1])
        elif word == "done":
            return not self._moves
        return True

    def _rows(self, state: State) -> list:
        return [row for row in state.rows if row.on is self._signals.get(self._taken)]

    def _run(self, number: int, row: int) -> bool:
        path = path_of(self._state)
        source = next((state for state in path if state.number == number), None)
        if source is None or not 1 <= row <= len(source.rows) or source.rows[row - 1].on is not self._signals.get(self._taken):
            return False
        inner = [other for state in path[:path.index(source)] for other in self._rows(state)]
        earlier = [other for other in source.rows[:row - 1] if other.on is self._signals.get(self._taken)]
        self._moves = row_moves(path[0], source, source.rows[row - 1])
        return all(other.when is not None for other in inner + earlier)

    def _move(self, word: str, number: int) -> bool:
        if not self._moves or self._moves.pop(0) != (word, number):
            return False
        state = self._chart.states[number - 1]
        if word != "init":
            self._state = state.parent if word == "exit" else state
        return True
