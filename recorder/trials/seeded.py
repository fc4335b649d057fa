"""Each seeded fault is found, with its verdict and its record.

docs/RECORDER.md has the same table in words. Which verdict comes depends on how the threads meet, so a fault has the definitions
that it may break, and the records at which they may fail.
"""

import re
from pathlib import Path
from typing import NamedTuple

from qpviewer.faults import Fault
from qpviewer.place import place_of

from .judging import LAWFUL, Judged, NotRun, judge, run
from .places import EXAMPLE, RUNS

#: After so many runs a fault isn't found.
MOST_RUNS = 400
#: So many runs may show a fault of threads otherwise first, as where it brings the framework to a stand within a step; each is printed.
MOST_OTHERS = 40


class Seeded(NamedTuple):
    """A fault: the run in which it shows, the definitions that it may break, and the words of the records that fail."""

    name: str
    run: str
    definitions: set[str]
    words: set[str]


class Found(NamedTuple):
    """How a fault was found: in which of its runs, with which verdict, and the first line of its place."""

    runs: int
    verdict: str
    place: str


FAULTS = [
    Seeded("FREED_TWICE", "philosophers", {"D10", "D11"}, {"back", "dec"}),
    Seeded("NOT_COUNTED", "philosophers", {"D10", "D11", "D12"}, {"back", "dec"}),
    Seeded("NOT_COUNTED_NOR_TOLD", "philosophers", {"D10", "D11", "D12"}, {"back", "dec"}),
    Seeded("PAST_MARGIN", "pressed", {"D15", "D20", "D7"}, {"post"}),
    Seeded("GIVEN_WHILE_HELD", "philosophers", {"D10"}, {"new"}),
    Seeded("ORDER_LOST", "philosophers", {"D13"}, {"took"}),
    Seeded("LOWEST_FIRST", "telemetry", {"D15"}, {"post"}),
    Seeded("LATE", "telemetry", {"D18"}, {"tick"}),
    Seeded("TICK_SKIPPED", "philosophers", {"D14", "D20"}, {"idle", "tick", "fire", "stim"}),
    Seeded("COUNTER_UNLOCKED", "telemetry", {"D10", "D11", "D12", "D15"}, {"back", "dec", "took", "nil", "done"}),
    Seeded("QUEUE_UNLOCKED", "philosophers", {"D10", "D11", "D13", "D14"}, {"took", "post", "back", "dec", "nil", "seen"}),
    Seeded("NOT_RELEASED", "philosophers", {"D15"}, {"took", "nil", "done", "recall"}),
    Seeded("POST_LOST", "philosophers", {"D13"}, {"took", "post"}),
    Seeded("LIFO_BEHIND", "philosophers", {"D13"}, {"took"}),
    Seeded("EXITS_INWARDS", "workshop", {"D7"}, {"exit"}),
    Seeded("OTHER_CHART", "philosophers", {"D7"}, {"exit", "enter"}),
    Seeded("RELEASED_EARLY", "telemetry", {"D10", "D11", "D12"}, {"back", "dec"}),
    Seeded("RECORDED_OUTSIDE", "philosophers", {"D11", "D13"}, {"took", "dec"}),
    Seeded("NO_SECTION", "workshop", {"D9", "D10", "D11", "D13", "D14"}, {"took", "post", "back", "dec", "new", "nil", "seen", "full"}),
]


def number_of(fault: str) -> int:
    """A fault's number, by its place in faults.h."""
    return re.findall(r"^    FAULT_([A-Z_]+)", (EXAMPLE / "faults.h").read_text(), re.M).index(fault)


def find(fault: Seeded, program: Path, folder: Path) -> Found | str:
    """Runs until the fault is found, by one of its rules and records; else why it isn't."""
    folder.mkdir(exist_ok=True)
    trace = folder / "trace"
    others: list[str] = []
    for count in range(1, MOST_RUNS + 1):
        try:
            run(program, RUNS[fault.run].stimuli, trace, number_of(fault.name))
        except NotRun:
            continue # such a fault may bring the framework to a stand, too; the next run tells more
        found = _told(fault, trace, folder, count)
        if found is None:
            continue
        if isinstance(found, Found) or len(others) == MOST_OTHERS:
            return found
        others.append(found)
        print(f"{fault.name}: run {count} shows it otherwise, so it is sought further: {found}", flush=True)
    return others[-1] if others else f"{MOST_RUNS} runs are lawful"


def _told(fault: Seeded, trace: Path, folder: Path, count: int) -> Found | str | None:
    """How a run shows the fault, or shows it otherwise; nothing where the run is lawful."""
    try:
        judged = judge(RUNS[fault.run], trace, folder)
    except Fault as told: # where two threads write into one buffer, its bytes are torn
        return f"no trace: {': '.join(filter(None, map(str, told.args)))}"
    return None if judged.verdict == LAWFUL else _place(fault, judged, count)


def _place(fault: Seeded, judged: Judged, count: int) -> Found | str:
    place = place_of(judged.system, judged.journal, judged.verdict, judged.stimuli)
    if place is None:
        return f"{judged.verdict}: its place isn't told"
    found = Found(count, judged.verdict, f"lane {place.spot.lane}, line {place.line_of(place.spot)}: {place.spot.record.text}: {place.why}")
    if place.verdict.definition not in fault.definitions or place.spot.record.word not in fault.words:
        return f"another verdict or record: {found}"
    return found
