"""Whether the starts of a run come first, by its journal.

It is `StartsFirst` of crates/qp_port_law: on each word, each number that a start drew is below each mark of any lane behind its own starts.
A mark is how many operations the word had behind the record: one more than a number drawn, or the number shown. So what a look, a stimulus or a
take does to a word comes behind each start that drew a number of it; of other words nothing is asked. `check` doesn't ask for it, since other
lawful journals lack it. It is proved of each run with threads.
"""

from typing import NamedTuple

from qpviewer.journal import PORT, Journal, Record
from qpviewer.touches import Word, touch_of


class Place(NamedTuple):
    """A record with its lane, and the mark that it has of a word."""

    mark: int
    lane: int
    record: Record


class Late(NamedTuple):
    """A start's record that comes behind another lane's step, look or stimulus."""

    word: Word
    start: Place
    other: Place

    def said(self) -> str:
        return (f"lane {self.start.lane} has '{self.start.record.text}' in a start, and lane {self.other.lane} has '{self.other.record.text}' "
                "behind its starts before it")


def starts_in(journal: Journal, objects: int, lane: int) -> int:
    """How many objects start in the lane: under `port` one in each home, else all in the first."""
    if journal.kernel != PORT:
        return objects if lane == 0 else 0
    return int(1 <= lane <= objects)


def late_start(journal: Journal, objects: int) -> Late | None:
    """A start that comes too late, of a system with so many objects; None where starts come first. Takes each record once."""
    highest: dict[Word, Place] = {}
    lowest: dict[Word, Place] = {}
    for lane, records in enumerate(journal.lanes):
        left = starts_in(journal, objects, lane)
        for record in records:
            touch = touch_of(record)
            if touch is not None:
                place = Place(touch.number + touch.draws, lane, record)
                if not left:
                    if touch.word not in lowest or place.mark < lowest[touch.word].mark:
                        lowest[touch.word] = place
                elif touch.draws and (touch.word not in highest or place.mark > highest[touch.word].mark):
                    highest[touch.word] = place
            if left and record.word == "done":
                left -= 1
    for word, start in highest.items():
        if word in lowest and lowest[word].mark < start.mark:
            return Late(word, start, lowest[word])
    return None
