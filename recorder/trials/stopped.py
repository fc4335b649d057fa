"""Traces that just stop, and buffers that overflow: what is told, and that their windows are lawful."""

import random
from pathlib import Path

from qpjournal.making import make
from qpjournal.trace import read_trace
from qpviewer.system import read_system

from .judging import LAWFUL, judge_trace, run
from .places import LANES, ONE, RUNS
from .wire import lengths_of, stopped_at


def stopped(trace: bytes, chance: random.Random) -> bytes:
    """The trace of buffers that stop anywhere, each by itself."""
    return stopped_at(trace, {who: chance.randrange(length + 1) for who, length in lengths_of(trace).items()})


#: The least part of what was recorded that windows keep in all: of one order nearly all, of buffers that stop each by itself less.
LEAST_KEPT = {ONE: 0.5, LANES: 0.05}


def try_windows(name: str, form: int, program: Path, folder: Path, count: int) -> list[str]:
    """What is wrong with so many windows of a run that stops anywhere."""
    of = RUNS[name]
    folder.mkdir(exist_ok=True)
    trace = folder / "trace"
    run(program, of.stimuli, trace)
    wrong: list[str] = []
    recorded = kept = 0
    for number in range(count):
        read = read_trace(stopped(trace.read_bytes(), random.Random(number)))
        judged = judge_trace(of.system, read, folder)
        recorded += sum(map(len, make(read_system(of.system.read_bytes()), read).lanes))
        kept += sum(map(len, judged.made.lanes))
        if judged.verdict != LAWFUL:
            wrong.append(f"window {number} of {name}: {judged.verdict}")
        elif not any(note.startswith("added: ") for note in judged.made.notes):
            wrong.append(f"window {number} of {name} doesn't tell what it added")
    if kept < LEAST_KEPT[form] * recorded:
        wrong.append(f"windows of {name} keep {kept} of {recorded} records")
    return wrong


def try_overflow(name: str, program: Path, folder: Path) -> list[str]:
    """What is wrong with a run whose buffers are too small: that is told, and the window is lawful."""
    of = RUNS[name]
    folder.mkdir(exist_ok=True)
    trace = folder / "trace"
    run(program, of.stimuli, trace)
    read = read_trace(trace.read_bytes())
    wrong = []
    if read.is_whole or not any("found no room and are lost" in note for note in read.told):
        wrong.append(f"{name}: records that found no room aren't told: {read.told}")
    judged = judge_trace(of.system, read, folder)
    return wrong + ([] if judged.verdict == LAWFUL else [f"{name}, small buffers: {judged.verdict}"])
