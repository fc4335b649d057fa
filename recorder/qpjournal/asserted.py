"""A run that ended at an assertion: the others, which stopped anywhere, are cut back to where a lane may stop.

On a board everything stops at once, in the middle of other steps. What such a step did last and isn't a whole action is taken out of
its lane, as if it hadn't begun it yet: a queue has the entry that was taken, a pool the block that was given out. Where others went on
from what is taken out, and an entry or a block more would have changed what they did, no lawful journal has both.
"""

import re
from bisect import bisect_left
from collections import defaultdict
from collections.abc import Iterator
from typing import NamedTuple

from qpviewer.system_parts import System

from .counting import DRAWN, Moments, Word, word_of
from .records import LAST_OBJECT, STIM_POST, Raw, who_is
from .stops import Left, ObjectStops, SourceStops, Stop, references_left
from .told import Told

Lanes = dict[int, list[Raw]]
#: For each word the numbers of the operations that are taken out, ascending.
Numbers = dict[Word, list[int]]

#: By what is taken out of a word: what others may have done on it since.
_UNTOUCHED_BY = {
    ("queue", "took"): {"post", "full"}, ("queue", "post"): {"post"}, ("queue", "lifo"): {"post"},
    ("pool", "new"): {"new", "back"}, ("block", "inc"): {"inc", "dec"},
}
_MARGIN = re.compile(r"\bmargin (\d+)")


class Tangled(Exception):
    """The others can't be cut back to where a lane may stop so that the assertion stays, with why not."""


class Cut(NamedTuple):
    """Numbered lanes, the moments of their stimuli, and what was left out."""

    lanes: Lanes
    moments: Moments | None
    notes: list[str]


def cut_others(system: System, lanes: Lanes, moments: Moments | None) -> Cut:
    """Cuts back the lanes without an assertion of their own. Raises `Tangled`."""
    told = Told(system, lanes, moments)
    left = references_left(lanes)
    kept = {who: _stop(told, left, who).kept for who in lanes}
    if all(kept[who] == len(raws) for who, raws in lanes.items()):
        return Cut(lanes, moments, [])
    _Later(told, kept).refuse_conflicts()
    numbers = _numbers(raw for who, raws in lanes.items() for raw in raws[kept[who]:])
    who_asserts = " and ".join(who_is(who) for who, raws in lanes.items() if _asserts(raws))
    notes = [
        f"{who_is(who)}: the last {len(raws) - kept[who]} of {len(raws)} records are left out: {who_asserts} asserted, and a lane stops "
        "before a step or a stimulus, or behind a whole action"
        for who, raws in lanes.items() if kept[who] < len(raws)
    ]
    return Cut(
        {who: [_renumbered(raw, numbers) for raw in raws[:kept[who]]] for who, raws in lanes.items()},
        moments and {place: _renumbered_moment(moment, numbers) for place, moment in moments.items()}, notes,
    )


def _assertion(lanes: Lanes) -> str:
    """The first assertion, as it was recorded."""
    raw = next(raw for raws in lanes.values() for raw in raws if raw.word == "assert")
    return f"assertion {raw.values[0]} of {who_is(raw.who)} (`assert {' '.join(map(str, raw.values))}`)"


def _asserts(raws: list[Raw]) -> bool:
    return any(raw.word == "assert" for raw in raws)


def _stop(told: Told, left: Left, who: int) -> Stop:
    raws = told.lanes[who]
    if _asserts(raws):
        return Stop(len(raws), -1)
    if who > LAST_OBJECT:
        return SourceStops(told, left, passes=True).last(who) # an interrupt's tick is done before a step goes on
    stop = ObjectStops(left).last(raws)
    return stop if stop.step < 0 or _is_row_known(told, who, stop) else Stop(stop.step, -1)


def _is_row_known(told: Told, who: int, stop: Stop) -> bool:
    """Whether the trace tells, or the chart leaves no choice, which row the step took that is broken off."""
    raws = told.lanes[who]
    if any(raw.word in ("run", "none", "handled") for raw in raws[stop.step:stop.kept]):
        return True
    path: list[int] = []
    for raw in raws[:stop.step]:
        if raw.word == "enter":
            path.append(raw.values[0])
        elif raw.word == "exit" and raw.values[0] in path:
            path.remove(raw.values[0])
    signal = told.queues.taken[who, stop.step].signal
    states = told.objects[who].chart.states
    return sum(row.on.number == signal for state in path if 0 < state <= len(states) for row in states[state - 1].rows) == 1


# Taking operations out.

def _numbers(removed: Iterator[Raw]) -> Numbers:
    numbers: Numbers = defaultdict(list)
    for raw in removed:
        if raw.word in DRAWN and (word := word_of(raw)):
            numbers[word].append(raw.number)
    for found in numbers.values():
        found.sort()
    return dict(numbers)


def _renumbered(raw: Raw, numbers: Numbers) -> Raw:
    word = word_of(raw)
    number, shown = raw.number, raw.shown
    if word in numbers:
        number -= bisect_left(numbers[word], number)
    if raw.word in ("new", "back") and (block := ("block", *raw.values[:2])) in numbers:
        shown -= bisect_left(numbers[block], shown)
    return raw if (number, shown) == (raw.number, raw.shown) else Raw(raw.who, raw.word, raw.values, number, shown)


def _renumbered_moment(moment: dict[int, int], numbers: Numbers) -> dict[int, int]:
    return {timer: count - bisect_left(numbers.get(("timer", timer), []), count) for timer, count in moment.items()}


class _Later:
    """What others did on the words of the records that are taken out, later than these."""

    def __init__(self, told: Told, kept: dict[int, int]):
        self._told = told
        self._removed: dict[Word, list[Raw]] = defaultdict(list)
        for who, raws in told.lanes.items():
            for raw in raws[kept[who]:]:
                if raw.word in DRAWN and (word := word_of(raw)):
                    self._removed[word].append(raw)
        self._kept: dict[Word, list[Raw]] = defaultdict(list)
        #: The margin of each post of a source, by its queue and number.
        self._margins: dict[tuple[int, int], int] = {}
        for who, raws in told.lanes.items():
            self._gather(who, raws[:kept[who]])
        texts = " ".join(_texts(told.system))
        self._most_margin = max(map(int, _MARGIN.findall(texts)), default=0)

    def _gather(self, who: int, raws: list[Raw]) -> None:
        margin = 0
        for raw in raws:
            if raw.word == "stim":
                margin = max(raw.values[3] - 1, 0) if raw.values[0] == STIM_POST else 0
            if raw.word == "post" and who > LAST_OBJECT:
                self._margins[raw.values[0], raw.number] = margin
            if (word := word_of(raw)) in self._removed:
                self._kept[word].append(raw)
            if raw.word in ("new", "back") and (block := ("block", *raw.values[:2])) in self._removed:
                self._kept[block].append(Raw(raw.who, raw.word, raw.values, raw.shown))

    def refuse_conflicts(self) -> None:
        """Raises `Tangled` for the first record that others went on from."""
        for word, removed in self._removed.items():
            first = min(removed, key=lambda raw: raw.number)
            allowed = set.intersection(*(_UNTOUCHED_BY.get((word[0], raw.word), set()) for raw in removed))
            later = [raw for raw in self._kept[word] if raw.number > first.number]
            if any(raw.word not in allowed for raw in later) or word[0] == "queue" and not self._has_room(word, first.number):
                raise Tangled(
                    f"the run ended at {_assertion(self._told.lanes)} while {who_is(first.who)} was in the middle of an action that others "
                    f"had gone on from (`{first.word}`), so no lawful journal has both; what stands before them is kept"
                )

    def _has_room(self, word: Word, first: int) -> bool:
        """Whether the posts that stand behind what is taken out of a queue find room without it, too."""
        target = self._told.objects.get(word[1])
        free = target.queue + 1 if target else 0
        for raw in sorted(self._kept[word], key=lambda raw: raw.number):
            if raw.word == "took":
                free += 1
            elif raw.word in ("post", "lifo"):
                margin = self._margins.get((word[1], raw.number), self._most_margin)
                if raw.number > first and free <= margin:
                    return False
                free -= 1
        return True


def _texts(system: System) -> Iterator[str]:
    """The actions of all charts."""
    for chart in system.charts.values():
        yield from chart.init_do
        for state in chart.states:
            yield from [*state.entry, *state.exit, *state.init_do]
            for row in state.rows:
                yield from row.do
