"""Many runs of each example: every journal is lawful, and each tenth is replayed in an order; a page is drawn of one."""

import os
import tempfile
from collections import Counter
from concurrent.futures import ThreadPoolExecutor
from pathlib import Path

from qpviewer.page import page_of
from qpviewer.story import Story

from .judging import LAWFUL, Judged, ask, judge, run
from .places import RUNS

#: One of so many runs is replayed.
REPLAYED = 10


def try_runs(name: str, programs: list[Path], count: int, folder: Path) -> Counter[str]:
    """So many runs of an example, in turn with each of its programs: how often each was said."""
    def one(number: int) -> str:
        with tempfile.TemporaryDirectory(dir=folder) as own:
            trace = Path(own, "trace")
            run(programs[number % len(programs)], RUNS[name].stimuli, trace)
            return _said(judge(RUNS[name], trace, Path(own)), number % REPLAYED == 0)

    with ThreadPoolExecutor(os.cpu_count()) as pool:
        return Counter(pool.map(one, range(count)))


def _said(judged: Judged, is_replayed: bool) -> str:
    if judged.verdict != LAWFUL:
        return judged.verdict
    if judged.made.notes:
        return f"lawful, but {judged.made.notes[0]}"
    if not is_replayed:
        return LAWFUL
    order = ask("replay", *judged.files).splitlines()[0].split(" ")
    records = sum(map(len, judged.journal.lanes))
    return LAWFUL if order == ["order", str(records)] else f"lawful, but {' '.join(order)} of {records} records"


def draw(name: str, program: Path, folder: Path) -> int:
    """The length of a page of a run."""
    run(program, RUNS[name].stimuli, folder / "trace")
    judged = judge(RUNS[name], folder / "trace", folder)
    story = Story(judged.system, judged.stimuli, judged.journal)
    return len(page_of(story, tuple(map(str, judged.files)), None))
