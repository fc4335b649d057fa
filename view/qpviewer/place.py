"""The place of a verdict: the record at which what `qp check` names fails, why, and what stands around it."""

from dataclasses import dataclass

from .course_places import course_failure
from .journal import Journal
from .object_places import deferral_failure, shape_failure
from .order import order_of
from .sites import Told
from .source_places import source_failure
from .story import Story
from .suspects import first_suspect
from .system_parts import System
from .verdict import MEANINGS, Verdict, read_verdict
from .word_places import Failure, Spot, WordPlaces

#: So many records are shown before the one that fails, and behind it.
AROUND = 6
#: Of these definitions the word's own history is read; of the others the records of an object or a lane.
_OF_WORDS = {"D9", "D10", "D11", "D12", "D13", "D14", "D16", "D18"}
_OF_OBJECTS = {"D15": shape_failure, "D17": deferral_failure, "D7": course_failure}


@dataclass
class Place:
    """A verdict's place: the record that fails and why, and the history that shows it; `held` is what its word held before."""

    verdict: Verdict
    spot: Spot
    why: str
    history: list[Spot]
    held: str
    journal: Journal

    def line_of(self, spot: Spot) -> int:
        """The line of a record in the journal's text, from 1."""
        before = sum(1 + len(records) for records in self.journal.lanes[:spot.lane])
        return before + spot.at + 3

    def around(self) -> list[Spot]:
        """The records of the history around the one that fails."""
        here = self.history.index(self.spot) if self.spot in self.history else 0
        return self.history[max(0, here - AROUND):here + AROUND + 1]

    def text(self) -> str:
        """The place in words: the record, why it fails, and the records around it."""
        lines = [f"lane {self.spot.lane}, line {self.line_of(self.spot)}: {self.spot.record.text}", f"  {self.why}"]
        if self.held:
            lines.append(f"  before it {self.held}")
        lines.append(f"  around it, of {len(self.history)} records:")
        for spot in self.around():
            lines.append(f"  {'>' if spot == self.spot else ' '} lane {spot.lane}, line {self.line_of(spot)}: {spot.record.text}")
        return "".join(f"{line}\n" for line in lines)


def place_of(system: System, journal: Journal, verdict: str, stimuli: list[list[str]] | None = None) -> Place | None:
    """Where a verdict's definition fails first; `None` where that can't be told. Raises `Fault` where the text isn't a verdict.

    A verdict is the line that `qp check` prints, as `qp: broken D12 block 1 1`. The stimuli serve for the lanes of sources alone.
    """
    read = read_verdict(verdict)
    if read is None:
        return None
    failure = _failure(system, journal, read, stimuli) or _suspect(system, journal, read, stimuli)
    return Place(read, failure.spot, failure.why, failure.history, failure.held, journal) if failure else None


def record_of(verdict: Verdict, story: Story) -> tuple[int, str] | None:
    """The place in a story's order of the record to look at first for a verdict, and why, where more can be said than the
    verdict does: the verdict's place, or else the last record of its site; none where the site has none."""
    place = place_of(story.system, story.journal, verdict.text, story.stimuli)
    if place:
        why = "" if place.why == MEANINGS[verdict.definition][1] else place.why
        return story.order.places.index((place.spot.lane, place.spot.at)), why
    last = Told(story.system, story.stimuli, story.journal, story.order).last_of(verdict)
    return (last, "") if last is not None else None


def _failure(system: System, journal: Journal, verdict: Verdict, stimuli: list[list[str]] | None) -> Failure | None:
    if verdict.definition in _OF_WORDS:
        return WordPlaces(system, journal).failure(verdict.definition, verdict.word)
    if verdict.definition in _OF_OBJECTS and verdict.kind == "object":
        owner = next((entry for entry in system.objects if entry.priority == verdict.numbers[0]), None)
        return _OF_OBJECTS[verdict.definition](system, journal, owner) if owner else None
    if verdict.definition == "D20" and verdict.kind == "lane":
        return source_failure(system, journal, verdict.numbers[0], stimuli)
    return None


def _suspect(system: System, journal: Journal, verdict: Verdict, stimuli: list[list[str]] | None) -> Failure | None:
    """The first record that doesn't fit those before it, with its lane's records."""
    if verdict.definition == "D20" and verdict.kind == "lane" and stimuli is None:
        return None
    order = order_of(journal, len(system.objects))
    index = first_suspect(verdict, system, stimuli or [], journal, order)
    if index is None:
        return None
    lane, at = order.places[index]
    spots = [Spot(lane, place, record) for place, record in enumerate(journal.lanes[lane])]
    if verdict.kind == "object":
        spots = [spot for spot in spots if spot.record.numbers[0] == verdict.numbers[0]]
    return Failure(Spot(lane, at, journal.lanes[lane][at]), MEANINGS[verdict.definition][1], spots)
