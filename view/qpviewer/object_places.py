"""Where an object's records fail: the first that fits no shape (D15), or that its deferred list doesn't allow (D17)."""

from .journal import PORT, Journal
from .shapes import Entry, References, Shapes, Unfit
from .system_parts import Object, System
from .word_places import Failure, Spot


def records_of(system: System, journal: Journal, owner: Object) -> list[Spot]:
    """An object's records: those of its home lane that are its own, looks at its own queue in `port` included."""
    return records_by_object(system, journal)[owner.priority]


def records_by_object(system: System, journal: Journal) -> dict[int, list[Spot]]:
    """The records of all objects by their priorities, in one pass over their lanes."""
    found: dict[int, list[Spot]] = {owner.priority: [] for owner in system.objects}
    if journal.kernel == PORT:
        for home, (owner, records) in enumerate(zip(system.objects, journal.lanes[1:]), 1):
            those = ((at, record) for at, record in enumerate(records) if record.numbers[0] == owner.priority or record.word == "seen")
            found[owner.priority] = [Spot(home, at, record) for at, record in those]
        return found
    for at, record in enumerate(journal.lanes[0] if journal.lanes else []):
        if (own := found.get(record.numbers[0])) is not None:
            own.append(Spot(0, at, record))
    return found


def shape_failure(system: System, journal: Journal, owner: Object) -> Failure | None:
    """The first record that fits no shape, or the last one where more has to follow; in a lawful list that is cut there may be such."""
    spots = records_of(system, journal, owner)
    shapes = Shapes(spots, References.of(journal), owner.priority)
    try:
        _read_start(shapes)
        while not shapes.is_done:
            _read_turn(shapes)
    except Unfit as unfit:
        return failure_at(spots, unfit)
    return _repeated(spots) or _not_at_home(system, journal, owner) or _asserted_quietly(journal, spots)


def failure_at(spots: list[Spot], unfit: Unfit) -> Failure | None:
    """The failure of a record, with the object's step or the source's stimulus in which it stands."""
    if not spots:
        return None
    return Failure(spots[min(unfit.at, len(spots) - 1)], unfit.why, spots)


def _read_start(shapes: Shapes) -> None:
    shapes.take("begin")
    _read_actions(shapes, None)


def _read_turn(shapes: Shapes) -> None:
    head = shapes.take("took", "nil", "seen", "spent")
    if head.word != "took":
        return
    entry: Entry = head.numbers[-3:]
    shapes.take("run", "none")
    if _read_actions(shapes, entry):
        shapes.release(entry)


def _read_actions(shapes: Shapes, now: Entry | None) -> bool:
    """Reads up to `done`; `False` where an assertion comes first."""
    while shapes.next_word() != "done":
        if shapes.group(now).asserted:
            if not shapes.is_done:
                raise Unfit(shapes.at, "something follows an assertion")
            return False
    shapes.take("done")
    return True


def _repeated(spots: list[Spot]) -> Failure | None:
    shown: set[tuple] = set()
    for spot in spots:
        if spot.record.word in ("nil", "seen"):
            if spot.record[:2] in shown:
                return Failure(spot, "the same counts stand in this lane before", spots)
            shown.add(spot.record[:2])
    return None


def _not_at_home(system: System, journal: Journal, owner: Object) -> Failure | None:
    """In `port`: what stands in an object's lane and isn't its own, or looks at its queue before its budget is taken."""
    home = 1 + system.objects.index(owner)
    if journal.kernel != PORT or home >= len(journal.lanes):
        return None
    spots = [Spot(home, at, record) for at, record in enumerate(journal.lanes[home])]
    taken = 0
    for spot in spots:
        taken += spot.record.word == "took"
        if spot.record.word == "seen":
            if spot.record.numbers[:2] != (0, owner.priority):
                return Failure(spot, "an object looks at its own queue alone", spots)
            if taken != journal.budget:
                return Failure(spot, f"it has taken {taken} events, and its budget is {journal.budget}", spots)
        elif spot.record.numbers[0] != owner.priority and spot.record.word != "spill":
            return Failure(spot, f"the lane is that of object {owner.priority}", spots)
    return None


def _asserted_quietly(journal: Journal, spots: list[Spot]) -> Failure | None:
    asserted = [spot for spot in spots if spot.record.word == "assert"]
    return Failure(asserted[0], "the end is 0, where an assertion stands", spots) if asserted and not journal.status else None


def deferral_failure(system: System, journal: Journal, owner: Object) -> Failure | None:
    """The first record that the deferred list doesn't allow."""
    spots = records_of(system, journal, owner)
    kept: list[Entry] = []
    for spot in spots:
        entry, why = spot.record.numbers[1:], ""
        match spot.record.word:
            case "defer":
                why = "the list is full" if len(kept) >= owner.defer else ""
                kept.append(entry)
            case "nodefer":
                why = "the list has room" if len(kept) < owner.defer else ""
            case "recall" | "flush":
                if not kept or kept[0] != entry:
                    why = f"the oldest is {' '.join(map(str, kept[0]))}" if kept else "the list is empty"
                kept[:1] = []
            case "norecall":
                why = f"the list has {len(kept)} entries" if kept else ""
            case _:
                continue
        if why:
            return Failure(spot, why, [one for one in spots if one.record.word in _DEFERRAL])
    return None


_DEFERRAL = {"defer", "nodefer", "recall", "norecall", "flush"}
