"""Lawful traces that a line hurts: bits flip, bytes and pieces are lost, the rest is cut off.

What is made of each is the right journal, a shorter one that says so, or nothing: a refusal. A shorter one is a front of the right one
in each lane, and lawful. So no run that is lawful gets another verdict.
"""

import random
from collections import Counter
from pathlib import Path
from typing import NamedTuple

from qpjournal.command import judgeable
from qpjournal.making import Made, make_ended
from qpjournal.records import LAST_OBJECT
from qpjournal.trace import Trace, read_trace
from qpviewer.faults import Fault
from qpviewer.system import read_system

from .building import Build, build_all
from .judging import LAWFUL, judge_trace, run
from .places import LANES, ONE, RUNS
from .wire import pieces_of

#: The runs whose traces are hurt, and the form of each.
HURT_RUNS = [
    ("lamp", ONE), ("lamp", LANES), ("telemetry", ONE), ("telemetry", LANES), ("philosophers", ONE), ("philosophers", LANES),
    ("workshop", ONE), ("workshop", LANES), ("crowd", ONE), ("pressed", LANES),
]
RIGHT, SHORTER, REFUSED = "the right journal", "a shorter one that says so", "a refusal"


class Whole(NamedTuple):
    """A lawful trace, and the journal of it."""

    name: str
    system: Path
    data: bytes
    read: Trace
    made: Made


class Hurts:
    """Hurts traces, and keeps what came of it."""

    def __init__(self, compiler: str, folder: Path):
        builds = {name_form: Build(compiler, RUNS[name_form[0]].app, name_form[1], "pieces") for name_form in HURT_RUNS}
        build_all(set(builds.values()), folder)
        self._folder = folder / "hurt"
        self._folder.mkdir(exist_ok=True)
        self._traces = [self._whole(name, build.program(folder)) for (name, _), build in builds.items()]
        self._known: dict[tuple, str] = {}
        self.said: Counter[str] = Counter()
        self.wrong: list[str] = []

    @property
    def judged(self) -> int:
        """How many different shorter ones were judged; the same records aren't judged twice."""
        return len(self._known)

    def _whole(self, name: str, program: Path) -> Whole:
        file = self._folder / name
        run(program, RUNS[name].stimuli, file)
        data = file.read_bytes()
        read = read_trace(data)
        system = RUNS[name].system
        return Whole(f"{name}, {len(pieces_of(data))} pieces", system, data, read, make_ended(read_system(system.read_bytes()), read))

    def try_all(self, count: int) -> None:
        for number in range(count):
            whole = self._traces[number % len(self._traces)]
            said = self._try(whole, hurt(whole.data, random.Random(number)))
            self.said[said] += 1
            if said not in (RIGHT, SHORTER, REFUSED):
                self.wrong.append(f"hurt {number}, {whole.name}: {said}")

    def _try(self, whole: Whole, data: bytes) -> str:
        try:
            read = read_trace(data)
        except Fault:
            return REFUSED
        if wrong := _not_a_front(read, whole.read):
            return wrong
        if read.is_whole:
            made = make_ended(read_system(whole.system.read_bytes()), read)
            return RIGHT if (made.sources, made.lanes) == (whole.made.sources, whole.made.lanes) else "another journal, said to be whole"
        if not read.told:
            return "a shorter one that doesn't say so"
        key = (whole.name, *((who, len(raws)) for who, raws in sorted(read.lanes.items())))
        if key not in self._known:
            self._known[key] = self._judge(whole, read)
        return self._known[key]

    def _judge(self, whole: Whole, read: Trace) -> str:
        try:
            judged = judge_trace(whole.system, read, self._folder)
        except Fault:
            return REFUSED
        if judged.verdict != LAWFUL:
            return judged.verdict
        return SHORTER if _are_fronts(judged.made, whole.made, len(read_system(whole.system.read_bytes()).objects)) else "another journal"


def _not_a_front(read: Trace, whole: Trace) -> str:
    """What is wrong where records were read that weren't recorded."""
    for who, raws in read.lanes.items():
        if raws != whole.lanes[who][:len(raws)]:
            return f"records of {who} that weren't recorded"
    return ""


def _are_fronts(made: Made, whole: Made, objects: int) -> bool:
    """Whether each lane is a front of that of the whole run, but for the window's own: its object behind the others, its source behind
    all, and that a settle sees its object too."""
    kept = [lane for number, lane in enumerate(made.lanes[:-1]) if number != objects + 1]
    shown = [[line for line in lane if not line.startswith(f"seen 0 {LAST_OBJECT} ")] for lane in kept]
    return all(lane == of[:len(lane)] for lane, of in zip(shown, whole.lanes))


def hurt(data: bytes, chance: random.Random) -> bytes:
    """Bytes with one to three damages."""
    for _ in range(chance.choice((1, 1, 1, 2, 3))):
        data = chance.choice((_flipped, _flipped, _lost, _piece_lost, _doubled, _cut))(data, chance)
    return data


def _flipped(data: bytes, chance: random.Random) -> bytes:
    if not data:
        return data
    at = chance.randrange(8 * len(data))
    return data[:at // 8] + bytes([data[at // 8] ^ 1 << at % 8]) + data[at // 8 + 1:]


def _lost(data: bytes, chance: random.Random) -> bytes:
    at = chance.randrange(len(data) + 1)
    return data[:at] + data[at + chance.choice((1, 1, 2, chance.randrange(200))):]


def _piece_lost(data: bytes, chance: random.Random) -> bytes:
    """Where a piece was hurt before, from some `QPR` on to the next."""
    starts = [at for at in range(len(data)) if data.startswith(b"QPR", at)] + [len(data)]
    at = chance.randrange(len(starts))
    return data[:starts[at]] + data[starts[min(at + 1, len(starts) - 1)]:]


def _doubled(data: bytes, chance: random.Random) -> bytes:
    at, more = chance.randrange(len(data) + 1), chance.randrange(300)
    return data[:at + more] + data[at:]


def _cut(data: bytes, chance: random.Random) -> bytes:
    return data[:chance.randrange(len(data) + 1)]
