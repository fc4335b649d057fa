"""What a run came to, by its journal: the lines that `--out summary` prints of a run, read off a lawful journal and its system's charts.

The program prints of a run its journal or its summary. Of a run with threads, which is never made a second time, the journal is kept, and its
summary is read off here: the notes say which lists of actions an object did, its calls what each answered, and only assignments are reckoned.
"""

from collections import Counter, defaultdict, deque
from collections.abc import Callable, Iterator
from functools import lru_cache

from qpviewer.actions import Action, read_action, value_of, wrapped
from qpviewer.journal import PORT, Journal, Record
from qpviewer.system_parts import Object, System

#: What each record that tells a call's answer says of it.
_ANSWERS: dict[str, Callable[[Record], int]] = {
    **dict.fromkeys(("post", "lifo", "pub", "defer", "recall", "sub", "unsub", "arm", "disarm"), lambda record: 1),
    **dict.fromkeys(("full", "short", "nodefer", "norecall", "same", "idle"), lambda record: 0),
    "rearm": lambda record: int(record.numbers[3] > 0),
    "flush": lambda record: 1,
}
#: How many records that look like answers stand behind one that is an answer, since they belong to the same call.
_MORE: dict[str, Callable[[Record], int]] = {"pub": lambda record: record.numbers[3].bit_count(), "recall": lambda record: 1}
_read = lru_cache(maxsize=None)(read_action)

#: The parameters of an event, by its entry.
_Events = dict[tuple[int, int], list[tuple[int, tuple[int, ...]]]]


def summary_of(system: System, journal: Journal) -> str:
    """The summary of a lawful journal of a system."""
    lines = [f"end {journal.status}"]
    events = _events(journal)
    for owner in system.objects:
        lines.append(_object_line(owner, _records_of(system, journal, owner), events))
    counts = Counter((record.word, record.numbers[1]) for lane in journal.lanes for record in lane if record.word in ("new", "back"))
    lines += [f"pool {number} given {counts['new', number]} back {counts['back', number]}" for number in range(1, len(system.pools) + 1)]
    return "".join(f"{line}\n" for line in lines)


def _events(journal: Journal) -> _Events:
    """The parameters of the events that each block held, each with the number of the operation from which on it did."""
    found: _Events = defaultdict(list)
    for lane in journal.lanes:
        for record in lane:
            if record.word == "new":
                _, pool, _, block, begins, _, *params = record.numbers
                found[pool, block].append((begins, tuple(params)))
    for lives in found.values():
        lives.sort()
    return found


def _params(events: _Events, entry: tuple[int, ...]) -> tuple[int, ...]:
    """The parameters of an entry's event; none where it is static."""
    pool, block, reference = entry
    begun = [params for begins, params in events.get((pool, block), []) if begins <= reference]
    return begun[-1] if pool and begun else ()


def _records_of(system: System, journal: Journal, owner: Object) -> list[Record]:
    home = 1 + system.objects.index(owner) if journal.kernel == PORT else 0
    lane = journal.lanes[home] if home < len(journal.lanes) else []
    return [record for record in lane if record.numbers[0] == owner.priority]


def _object_line(owner: Object, records: list[Record], events: _Events) -> str:
    taken = sum(1 for record in records if record.word == "took")
    if next((record.word for record in reversed(records) if record.word in ("begin", "took", "done")), "") != "done":
        return f"object {owner.name} {taken} -"
    state = next(record.numbers[1] for record in reversed(records) if record.word == "enter")
    values = _Followed(owner, records, events).values()
    told = "".join(f" {name}={value}" for name, value in sorted(values.items()))
    return f"object {owner.name} {taken} {owner.chart.states[state - 1].name}{told}"


class _Followed:
    """An object whose steps are all done, followed through its records."""

    def __init__(self, owner: Object, records: list[Record], events: _Events):
        self._owner, self._events = owner, events
        self._notes = [record for record in records if record.word in ("begin", "took", "run", "exit", "enter", "init")]
        self._answers = deque(record for record in records if record.word in _ANSWERS)
        self._values, self._ok = dict(owner.vars), 0

    def values(self) -> dict[str, int]:
        """The variables behind the last step."""
        params: tuple[int, ...] = ()
        for note in self._notes:
            if note.word == "took":
                params = _params(self._events, note.numbers[-3:])
            for text in self._list_of(note):
                self._do(_read(text), params)
        return self._values

    def _list_of(self, note: Record) -> list[str]:
        """The actions that an object does behind a note."""
        chart = self._owner.chart
        if note.word == "begin":
            return chart.init_do
        if note.word == "took":
            return []
        state = chart.states[note.numbers[1] - 1]
        return {"exit": state.exit, "enter": state.entry, "init": state.init_do}.get(note.word) or (
            state.rows[note.numbers[2] - 1].do if note.word == "run" else [])

    def _do(self, action: Action, params: tuple[int, ...]) -> None:
        match action.word:
            case "set":
                given = {f"p{place}": wrapped(value) for place, value in enumerate(params, 1)}
                self._values[action.name] = value_of(action.values[0], self._values | given | {"ok": self._ok, "me": self._owner.priority})
            case "locked":
                for inner in action.inner:
                    self._do(inner, params)
            case "flush":
                self._ok = sum(1 for _ in self._flushed())
            case "say":
                pass
            case _:
                record = self._answers.popleft()
                self._ok = _ANSWERS[record.word](record)
                for _ in range(_MORE.get(record.word, lambda record: 0)(record)):
                    self._answers.popleft()

    def _flushed(self) -> Iterator[Record]:
        while self._answers and self._answers[0].word == "flush":
            yield self._answers.popleft()
