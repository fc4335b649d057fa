"""A journal's records by the sites of a verdict: words, objects, lanes."""

from typing import NamedTuple

from .journal import PORT, Journal, Record
from .order import Order
from .system_parts import Object, System
from .touches import Word, touch_of
from .verdict import Verdict


class At(NamedTuple):
    """A record with its place in order and its lane."""

    place: int
    lane: int
    record: Record


class Touching(NamedTuple):
    """A record that draws or shows a number of a word."""

    place: int
    lane: int
    record: Record
    number: int
    draws: bool


class Told:
    """All records of a journal in order, and what of them concerns one site."""

    def __init__(self, system: System, stimuli: list[list[str]], journal: Journal, order: Order):
        self.system, self.stimuli, self.journal, self.order = system, stimuli, journal, order
        self.records = [At(index, lane, journal.lanes[lane][at]) for index, (lane, at) in enumerate(order.places)]
        self.objects: dict[int, Object] = {entry.priority: entry for entry in system.objects}

    def touching(self, word: Word) -> list[Touching]:
        """The records that touch a word, in order."""
        found = []
        for index, lane, record in self.records:
            touch = touch_of(record)
            if touch and touch.word == word:
                found.append(Touching(index, lane, record, touch.number, touch.draws))
        return found

    def history(self, word: Word) -> list[Touching]:
        """A word's operations by their numbers."""
        return sorted((touch for touch in self.touching(word) if touch.draws), key=lambda touch: touch.number)

    def home(self, priority: int) -> int:
        """The lane in which an object's records stand."""
        if self.journal.kernel != PORT:
            return 0
        return next((lane for lane, entry in enumerate(self.system.objects, 1) if entry.priority == priority), 0)

    def of_object(self, priority: int) -> list[At]:
        """The records in an object's home lane that state it."""
        home = self.home(priority)
        return [at for at in self.records if at.lane == home and at.record.numbers[0] == priority]

    def of_lane(self, lane: int) -> list[At]:
        return [at for at in self.records if at.lane == lane]

    def last_of(self, verdict: Verdict) -> int | None:
        """The last record of a verdict's site."""
        match verdict.kind:
            case "object":
                found = [at.place for at in self.of_object(*verdict.numbers)]
            case "lane":
                found = [at.place for at in self.of_lane(*verdict.numbers)]
            case "whole":
                found = [at.place for at in self.records]
            case _:
                found = [touch.place for touch in self.touching(verdict.word)]
        return found[-1] if found else None
