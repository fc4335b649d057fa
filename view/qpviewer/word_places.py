"""Where a word breaks its law: the first record of its history that fails (D9 to D14, D16, D18)."""

from collections import defaultdict
from collections.abc import Callable
from typing import NamedTuple

from .journal import Journal, Record
from .system_parts import System
from .touches import Touch, Word, touch_of
from .word_laws import FreeBlocks, Law, Line, References, Subscribers, TimeEvent


class Spot(NamedTuple):
    """A record of a journal: its lane, and its place there from 0."""

    lane: int
    at: int
    record: Record


class Failure(NamedTuple):
    """A record that fails, why, and the history that shows it; `held` is what the word holds before."""

    spot: Spot
    why: str
    history: list[Spot]
    held: str = ""


class WordPlaces:
    """The histories of a journal's words."""

    def __init__(self, system: System, journal: Journal):
        self._rings = {entry.priority: entry.queue for entry in system.objects}
        self._blocks = dict(enumerate((pool.blocks for pool in system.pools), 1))
        self._drawn: dict[Word, list[tuple[Touch, Spot]]] = defaultdict(list)
        self._touched: dict[Word, list[tuple[Touch, Spot]]] = defaultdict(list)
        for lane, records in enumerate(journal.lanes):
            for at, record in enumerate(records):
                if touch := touch_of(record):
                    spot = (touch, Spot(lane, at, record))
                    self._touched[touch.word].append(spot)
                    if touch.draws:
                        self._drawn[touch.word].append(spot)
        self._tests: dict[str, Callable[[Word], Failure | None]] = {
            "D9": self.numbers, "D10": self.operations, "D11": self.operations, "D12": self.lives, "D13": self.operations,
            "D14": self.shown, "D16": self.operations, "D18": self.operations,
        }

    def failure(self, definition: str, word: Word) -> Failure | None:
        """The first record at which a word fails a definition, as `D12`."""
        test = self._tests.get(definition)
        return test(word) if test else None

    def history(self, word: Word) -> list[Spot]:
        """The operations on a word by their numbers."""
        return [spot for touch, spot in sorted(self._drawn[word], key=lambda one: one[0].number)]

    def _law(self, word: Word) -> Law:
        match word:
            case ("pool", pool):
                return FreeBlocks(self._blocks.get(pool, 0))
            case ("block", *_):
                return References()
            case ("queue", priority):
                return Line(self._rings.get(priority, 0))
            case ("signal", _):
                return Subscribers()
        return TimeEvent()

    def numbers(self, word: Word) -> Failure | None:
        """Drawn numbers."""
        history = self.history(word)
        expected = 0
        for touch, spot in sorted(self._drawn[word], key=lambda one: one[0].number):
            if touch.number != expected:
                before = f"number {touch.number} was drawn before" if touch.number < expected else f"no record draws number {expected}"
                return Failure(spot, "it draws no number" if touch.number < 0 else before, history)
            expected += 1
        return None

    def operations(self, word: Word) -> Failure | None:
        """Free blocks, references, line, subscribers, time events."""
        history, law = self.history(word), self._law(word)
        for spot in history:
            if why := law.wrong(spot.record):
                return Failure(spot, why, history, law.held())
            law.after(spot.record)
        return None

    def shown(self, word: Word) -> Failure | None:
        """Shown numbers."""
        return self._misstated(word) or self._falling(word)

    def _misstated(self, word: Word) -> Failure | None:
        history = self.history(word)
        found: list[tuple[int, Failure]] = []
        for touch, spot in self._touched[word]:
            if touch.draws:
                continue
            law = self._law(word)
            for operation in history[:touch.number]:
                law.after(operation.record)
            why = law.misstated(spot.record)
            if touch.number > len(history):
                why = f"it shows {touch.number} operations of {len(history)}"
            if why:
                found.append((touch.number, Failure(spot, why, _with(history, touch.number, spot), law.held())))
        return min(found, key=lambda one: one[0])[1] if found else None

    def _falling(self, word: Word) -> Failure | None:
        marks: dict[int, int] = defaultdict(int)
        for touch, spot in self._touched[word]:
            mark = touch.number + touch.draws
            if mark < marks[spot.lane]:
                why = f"its lane knew of {marks[spot.lane]} operations before, and of {mark} here"
                history = self.history(word)
                return Failure(spot, why, history if touch.draws else _with(history, touch.number, spot))
            marks[spot.lane] = mark
        return None

    def lives(self, word: Word) -> Failure | None:
        """Lives of a block."""
        _, pool, block = word
        edges = [spot for spot in self.history(("pool", pool)) if spot.record.numbers[3] == block]
        operations = self.history(word)
        standing = _standing(operations)
        is_out, edge = False, 0
        for spot in edges:
            begins = spot.record.word == "new"
            here = spot.record.numbers[4]
            why = ""
            if begins == is_out:
                why = "the block is given out already" if begins else "the block isn't given out"
            elif begins and here != edge:
                why = f"the former life ended behind {edge} operations, and this one begins behind {here}"
            elif not begins and here <= edge:
                why = f"the life began behind {edge} operations, and ends behind {here}"
            elif here > len(operations):
                why = f"the block has {len(operations)} operations, not {here}"
            elif standing[here]:
                why = f"behind {here} operations the references {', '.join(map(str, standing[here]))} stand"
            if why:
                return Failure(spot, why, _merged(edges, operations), f"references: {standing[min(here, len(operations))] or 'none'}")
            is_out, edge = begins, here
        return self._uncovered(edges, operations, standing, is_out, edge)

    def _uncovered(
        self, edges: list[Spot], operations: list[Spot], standing: list[list[int]], is_out: bool, edge: int
    ) -> Failure | None:
        known = {spot.record.numbers[4] for spot in edges}
        if not is_out and edge < len(operations):
            return Failure(operations[edge], "the block isn't given out", _merged(edges, operations))
        for number in range(len(operations)):
            if not standing[number] and number not in known:
                why = "it leaves no reference, and the block doesn't come back here"
                return Failure(operations[max(0, number - 1)], why, _merged(edges, operations))
        return None


def _with(history: list[Spot], number: int, spot: Spot) -> list[Spot]:
    """A history with a record that shows the word behind so many operations."""
    return [*history[:number], spot, *history[number:]]


def _standing(operations: list[Spot]) -> list[list[int]]:
    """The references that stand behind each count of a block's operations."""
    law = References()
    found: list[list[int]] = [[]]
    for spot in operations:
        law.after(spot.record)
        found.append(list(law.standing))
    return found


def _merged(edges: list[Spot], operations: list[Spot]) -> list[Spot]:
    """A block's operations with the records that give it out and take it back, each where it says that it stands."""
    found: list[Spot] = []
    left = list(edges)
    for number, spot in enumerate(operations):
        while left and left[0].record.numbers[4] <= number:
            found.append(left.pop(0))
        found.append(spot)
    return found + left
