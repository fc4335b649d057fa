"""Runs a case under a kernel, and has the journal judged and replayed."""

import re
import tempfile
from dataclasses import dataclass
from pathlib import Path

from qpviewer.files import read_run
from qpviewer.naming import signed
from qpviewer.positions import read_lines
from qpviewer.story import Story

from ..explain.command import explanation
from ..explain.refusal import Refusal, read_refusal
from ..program import Answer, call
from .case_file import THREADED, Case
from .summary import Summary, read_summary

#: The statuses of a call that made a run.
RUNS = (0, 3, 4)
#: Records of calls that were refused.
_REFUSED = {"full", "short", "nodefer"}


@dataclass(frozen=True)
class Outcome:
    """What came of a run: its summary as text and read, its story, what the judge said, and what is wrong with the order or the cycle of
    its records, if anything is. Under a kernel with threads the summary is that of a second run."""

    text: str
    summary: Summary
    story: Story
    verdict: str
    replayed: str

    def said(self, priority: int) -> list[int]:
        """The values that an object said, in order."""
        return [signed(record.numbers[1]) for _, record in self.story.records() if record.word == "say" and record.numbers[0] == priority]

    def refused(self) -> list[int]:
        """The places of records of refused calls."""
        return [index for index, (_, record) in enumerate(self.story.records()) if record.word in _REFUSED]


@dataclass(frozen=True)
class NoRun:
    """Why there was no run to look at: where, as `FILE:LINE`, what is wrong there, and more lines, the program's own the first."""

    place: str
    words: str
    lines: list[str]


def run_case(case: Case, kernel: str) -> Outcome | NoRun:
    """Runs a case under a kernel."""
    with tempfile.TemporaryDirectory() as folder:
        stimuli = case.stimuli if isinstance(case.stimuli, Path) else Path(folder, "stimuli")
        if isinstance(case.stimuli, str):
            stimuli.write_text(case.stimuli)
        journal = Path(folder, "journal")
        words = ["run", "--kernel", kernel, "--budget", str(case.budget), "--", str(case.system), str(stimuli)]
        ran = call(words)
        if ran.status not in RUNS:
            return no_run(case, words, ran)
        journal.write_bytes(ran.output)
        files = [str(case.system), str(stimuli), str(journal)]
        judged, replayed = call(["check", *files]), call(["replay", *files])
        summed = call([words[0], "--out", "summary", *words[1:]])
        if summed.status not in RUNS:
            return no_run(case, words, summed)
        text, story = summed.output.decode(), Story(*read_run(*files))
        return Outcome(text, read_summary(text), story, _verdict(judged), replay_fault(replayed, len(story.records()), kernel))


def no_run(case: Case, words: list[str], ran: Answer) -> NoRun:
    """Why a call left no run, with the place that is to be mended."""
    *_, system, stimuli = words
    note = ran.note.strip()
    first, *rest = explanation(words, ran.note) or [note]
    refusal = read_refusal(ran.note) or Refusal("")
    if refusal.file and (found := re.fullmatch(rf"{re.escape(refusal.file)}:([0-9]+): (.*)", first)):
        line, first = int(found[1]), found[2]
    else:
        line = _line(refusal, Path(system), first)
    keys = {system: "system", stimuli: "stimuli"}
    if refusal.kind != "fault":
        place = case.place(keys.get(refusal.file, ""))
    else:
        place = case.place_in_stimuli(line) if refusal.file == stimuli else f"{refusal.file}:{line}"
    if isinstance(case.stimuli, str):
        note, first = (text.replace(stimuli, "stimuli") for text in (note, first))
    return NoRun(place, first, [line for line in (note, *rest) if line != first])


def _line(refusal: Refusal, system: Path, words: str) -> int:
    """The line of a file at which it is refused."""
    if refusal.kind != "fault" or refusal.file != str(system):
        return int(refusal.place) if refusal.place.isdecimal() else 1
    if refusal.place == "-":
        found = re.search(r"at line ([0-9]+)", words)
        return int(found[1]) if found else 1
    try:
        return read_lines(system.read_bytes()).line_of(refusal.place)
    except OSError:
        return 1


def replay_fault(replayed: Answer, records: int, kernel: str) -> str:
    """What is wrong with the order or the cycle that was printed of a journal's records; nothing where it is as it has to be: all records,
    or, where threads made them, some that go in a circle."""
    head, *lines = replayed.output.decode().splitlines() or [""]
    kind, _, count = head.partition(" ")
    if replayed.status or count != str(len(lines)):
        return replayed.note.strip() or f"no order of records: {head!r}"
    if kind == "order":
        return "" if len(lines) == records else f"an order of {len(lines)} records, and the journal has {records}"
    return "" if kind == "cycle" and lines and kernel in THREADED else f"a {kind} of {len(lines)} records"


def _verdict(judged: Answer) -> str:
    return (judged.output.decode() or judged.note).strip()
