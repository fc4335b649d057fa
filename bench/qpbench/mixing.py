"""Whether sources ran beside one another, by the journal of a run with threads."""

from qpviewer.journal import PORT, Journal
from qpviewer.touches import Word, touch_of


def sources_mix(journal: Journal, objects: int) -> bool:
    """Whether on a queue a post of one source stands between two of another, of a system with so many objects. A lane's posts to a queue
    have ascending numbers, so it is whether what two lanes have from their first to their last overlaps. Takes each record once."""
    first_source = objects + 1 if journal.kernel == PORT else 1
    spans: dict[Word, list[tuple[int, int]]] = {}
    for records in journal.lanes[first_source:]:
        of_lane: dict[Word, tuple[int, int]] = {}
        for record in records:
            touch = touch_of(record) if record.word == "post" else None
            if touch is not None:
                of_lane[touch.word] = of_lane.get(touch.word, (touch.number, 0))[0], touch.number
        for word, span in of_lane.items():
            spans.setdefault(word, []).append(span)
    return any(overlap(found) for found in spans.values())


def overlap(spans: list[tuple[int, int]]) -> bool:
    """Whether two of these overlap."""
    ordered = sorted(spans)
    return any(after[0] < before[1] for before, after in zip(ordered, ordered[1:]))
