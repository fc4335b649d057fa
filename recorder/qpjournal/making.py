"""Stimuli and a journal out of a trace."""

from dataclasses import dataclass, field

from qpviewer.faults import Fault
from qpviewer.system_parts import System

from .asserted import cut_others
from .counting import Moments, counted
from .object_lane import ObjectLane
from .pieces import ONE
from .records import LAST_OBJECT, Raw, who_is
from .source_lane import SourceLane
from .stops import SourceStops, references_left
from .told import Told
from .trace import Trace

#: The form that the journal has, its kernel (`port`), and its budget: no object of a trace may take more events.
FORM, PORT, BUDGET = 2, 2, 1_000_000
ASSERTED = 3
#: The most records of a lane, and bytes of a file, that `qp check` takes.
MOST_RECORDS, MOST_BYTES = 1_000_000, 67_108_864


@dataclass
class Made:
    """The lines of each source, the lines of each lane from 0, the end, what a reader has to know beside them, and, where that may be
    otherwise, whether each source did all of its last stimulus."""

    sources: list[list[str]]
    lanes: list[list[str]]
    end: int
    notes: list[str]
    is_last_whole: list[bool] = field(default_factory=list)

    def stimuli_text(self) -> str:
        return "".join(f"source {number}\n" + "".join(f"{line}\n" for line in lines) for number, lines in enumerate(self.sources, 1))

    def journal_text(self) -> str:
        lines = [f"qp {FORM} {PORT} {BUDGET}"]
        for number, lane in enumerate(self.lanes):
            lines += [f"lane {number}", *lane]
        lines += [f"end {self.end}", ""]
        return "\n".join(lines)


def make(system: System, trace: Trace) -> Made:
    """The journal of all records of a trace. Raises `Fault` where the system lacks what they name."""
    told = Told(system, *_numbered(system, trace))
    made = _made(told, trace)
    stops = SourceStops(told, references_left(told.lanes), passes=False)
    made.is_last_whole = [stops.is_last_whole(LAST_OBJECT + number) for number in range(1, told.sources + 1)]
    return made


def make_ended(system: System, trace: Trace) -> Made:
    """The journal of a trace that is whole: where it ended at an assertion, the others are cut back to where a lane may stop. Raises
    `Fault`, and `Tangled` where they can't be."""
    lanes, moments = _numbered(system, trace)
    if not _is_asserted(lanes):
        return _made(Told(system, lanes, moments), trace)
    cut = cut_others(system, lanes, moments)
    made = _made(Told(system, cut.lanes, cut.moments), trace)
    made.notes += cut.notes
    return made


def _numbered(system: System, trace: Trace) -> tuple[dict[int, list[Raw]], Moments | None]:
    lanes, moments = counted(trace.order) if trace.form == ONE else (trace.lanes, None)
    known = {entry.priority for entry in system.objects}
    for who in lanes:
        if who <= LAST_OBJECT and who not in known:
            raise Fault("", f"the trace has records of {who_is(who)}, which the system doesn't have")
    return lanes, moments


def _made(told: Told, trace: Trace) -> Made:
    objects = [ObjectLane(told, priority) for priority in sorted(told.objects)]
    sources = [SourceLane(told, LAST_OBJECT + number) for number in range(1, told.sources + 1)]
    made: list[ObjectLane | SourceLane] = [*objects, *sources]
    for lane in made:
        lane.write_all()
    lanes: list[list[str]] = [[], *(lane.lines for lane in made)]
    notes = trace.told + list(dict.fromkeys(told.notes))
    return Made([source.stimuli for source in sources], lanes, ASSERTED if _is_asserted(told.lanes) else 0, notes)


def _is_asserted(lanes: dict[int, list[Raw]]) -> bool:
    return any(raw.word == "assert" for lane in lanes.values() for raw in lane)
