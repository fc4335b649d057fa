"""What runs come to: of the orders of stimuli, each at once, settled and between; and of runs with threads, which take an order each."""

import os
import re
import tempfile
from collections.abc import Callable, Iterator
from concurrent.futures import ThreadPoolExecutor
from contextlib import contextmanager
from dataclasses import dataclass, field, replace
from itertools import count, islice
from pathlib import Path
from typing import NamedTuple, TypeVar

from qpviewer.journal import PORT, Journal, read_journal
from qpviewer.naming import Names
from qpviewer.record_words import RecordWords
from qpviewer.system_parts import System

from ..program import Answer, call
from .orders import Order, Plan, between, count_of, lines_of, orders, places_between, settled, text_of
from .outcome import RUNS
from .values import summary_of

_RATES = range(4)
_Given = TypeVar("_Given")
_Made = TypeVar("_Made")


class NotRun(Exception):
    """A call that left no run: the program's line."""


class Outcome(NamedTuple):
    """What a run comes to: its end, the summary's other lines, and what stopped it, if anything did."""

    end: int
    lines: tuple[str, ...]
    stop: str = ""


@dataclass(frozen=True)
class Group:
    """Runs that come to the same: how many they are, and the shortest plan that leads there, that is the one of which the fewest stimuli
    happen until the run ends. Only what happens is in it. With threads there is no plan, but the journal of one of the runs."""

    outcome: Outcome
    count: int
    plan: Plan = ()
    journal: bytes = field(default=b"", repr=False)


class Orders(NamedTuple):
    """The runs of the orders of some stimuli: their outcomes, the commonest first, how many orders there are and how many were run, how many
    runs between there could be and were, and the line that lets a look go by, which is empty where there is none."""

    groups: list[Group]
    orders: int
    run: int
    between: int
    run_between: int
    waiting: str


def waiting_line(system: System) -> str:
    """A stimulus that does nothing: a tick of a rate by which no timer goes. Nothing where each rate has one."""
    used = {timer.rate for chart in system.charts.values() for timer in chart.timers}
    return next((f"tick {rate}" for rate in reversed(_RATES) if rate not in used), "")


def outcomes(path: str, system: System, stimuli: list[list[str]], kernel: str, most: int) -> Orders:
    """What comes of at most so many orders, each at once and settled, and of as many runs between."""
    lengths = [len(lines) for lines in stimuli]
    chosen, waiting = list(islice(orders(lengths), most)), waiting_line(system)
    with _runner(path, system, kernel) as runner:
        def run(plan: Plan) -> tuple[Outcome, Plan]:
            return runner.run(plan, lines_of(plan, stimuli, waiting))

        def looks(order: Order) -> tuple[list[int], int]:
            return runner.looks(lines_of(settled(order), stimuli, waiting))

        ran = list(runner.each(run, [*chosen, *(plan for order in chosen if (plan := settled(order)))]))
        looked = runner.each(looks, chosen) if waiting else []
        places = [place for order, (at, last) in zip(chosen, looked) for place in places_between(order, at, last)
                  if lines_of(order, stimuli, "")[place.place] != "settle"]
        late = list(islice(between(places), most))
        ran += runner.each(run, late)
    return Orders(_grouped(ran), count_of(lengths), len(chosen), sum(place.looks for place in places), len(late), waiting)


def _grouped(ran: list[tuple[Outcome, Plan]]) -> list[Group]:
    """The outcomes, the commonest first."""
    found: dict[Outcome, list[Plan]] = {}
    for outcome, plan in ran:
        found.setdefault(outcome, []).append(plan)
    groups = [Group(outcome, len(those), min(those, key=_length)) for outcome, those in found.items()]
    return sorted(groups, key=lambda group: -group.count)


def _length(plan: Plan) -> int:
    """How many stimuli of sources a plan has."""
    return sum(1 for part in plan if part > 0)


@contextmanager
def _runner(path: str, system: System, kernel: str) -> Iterator["_Runner"]:
    """Runs a system under a kernel, with a folder for what runs need."""
    with tempfile.TemporaryDirectory() as folder, ThreadPoolExecutor(os.cpu_count()) as pool:
        yield _Runner(path, system, kernel, Path(folder), pool)


class _Runner:
    """Runs of a system under a kernel, several at once."""

    def __init__(self, path: str, system: System, kernel: str, folder: Path, pool: ThreadPoolExecutor):
        self._path, self._system, self._kernel, self._folder, self._pool = path, system, kernel, folder, pool
        self._numbers = count()

    def each(self, make: Callable[[_Given], _Made], given: list[_Given]) -> Iterator[_Made]:
        return self._pool.map(make, given)

    def call(self, stimuli: str, *words: str) -> Answer:
        """The answer of a run. Raises `NotRun`."""
        ran = call(["run", "--kernel", self._kernel, *words, "--", self._path, stimuli])
        if ran.status not in RUNS:
            raise NotRun(ran.note.strip())
        return ran

    @contextmanager
    def _file(self, lines: list[str]) -> Iterator[str]:
        file = self._folder / str(next(self._numbers))
        file.write_text(text_of(lines))
        yield str(file)
        file.unlink()

    def run(self, plan: Plan, lines: list[str]) -> tuple[Outcome, Plan]:
        """What a plan comes to, and as much of it as happens: all of it, unless the run is stopped before."""
        with self._file(lines) as file:
            ran = self.call(file, "--out", "summary")
            head, *rest = ran.output.decode().splitlines()
            outcome = Outcome(int(head.partition(" ")[2]), tuple(rest))
            if not ran.status:
                return outcome, plan
            journal = self.call(file).output
        outcome = stopped_by(outcome, ran.note, stop_in_words(self._system, read_journal(journal), "a stimulus"))
        return outcome, happened(plan, journal.count(b"\nstim "))

    def journal(self, lines: list[str]) -> bytes:
        """The journal of a plan's run."""
        with self._file(lines) as file:
            return self.call(file).output

    def looks(self, lines: list[str]) -> tuple[list[int], int]:
        """The number of the look in which each stimulus happens, as far as they do, and that of the last look."""
        journal = self.journal(lines)
        found = re.findall(rb"^(stim|look) 0 ([0-9]+)(?: ([0-9]+))?", journal, re.M)
        return [int(look) for word, _, look in found if word == b"stim"], max((int(look) for word, look, _ in found if word == b"look"), default=0)


def stopped_by(outcome: Outcome, note: str, words: str) -> Outcome:
    """An outcome with what stopped its run: the program's line, and what the journal says."""
    return outcome._replace(stop=f"{note.strip().removeprefix('qp: ')}: {words}")


def happened(plan: Plan, stimuli: int) -> Plan:
    """As much of a plan as there are stimuli, without what would let time go by at its end."""
    last = max((at for at, part in enumerate(plan[:stimuli], 1) if part > 0), default=0)
    return plan[:last]


def stop_in_words(system: System, journal: Journal, source: str = "source {}") -> str:
    """Who stopped a run and why: the `assert` of the lowest lane that has one, or else its `spent` or `spill`, which are last. A source is
    called as `source` has it, with its number in the place of `{}`."""
    names = Names(system)
    for words in (("assert",), ("spent", "spill")):
        for number, lane in enumerate(journal.lanes):
            if lane and lane[-1].word in words:
                owner = lane[-1].numbers[0]
                of = number - len(system.objects) * (journal.kernel == PORT)
                who = names.object(owner) if owner else source.format(of) if of > 0 else "kernel"
                return f"{who} {RecordWords(names).stop(lane[-1])}"
    return ""


def run_outcomes(path: str, system: System, stimuli: str, kernel: str, runs: int) -> list[Group]:
    """What comes of so many runs with threads, the commonest first, each with the journal of the first run that came to it."""
    found: dict[Outcome, Group] = {}
    with _runner(path, system, kernel) as runner:
        def run(_: int) -> tuple[Outcome, bytes]:
            ran = runner.call(stimuli)
            journal = read_journal(ran.output)
            head, *rest = summary_of(system, journal).splitlines()
            outcome = Outcome(int(head.partition(" ")[2]), tuple(rest))
            return (stopped_by(outcome, ran.note, stop_in_words(system, journal)) if ran.status else outcome), ran.output

        for outcome, output in runner.each(run, list(range(runs))):
            known = found.get(outcome) or Group(outcome, 0, (), output)
            found[outcome] = replace(known, count=known.count + 1)
    return sorted(found.values(), key=lambda group: -group.count)


def keep(path: str, system: System, kernel: str, folder: Path, groups: list[Group], lines: list[list[str]]) -> list[str]:
    """Writes a journal of each outcome into a folder: one that is at hand, or else that of a plan with these lines, with its stimuli. Answers the
    journals' names."""
    names = []
    with _runner(path, system, kernel) as runner:
        for number, group in enumerate(groups, 1):
            journal = folder / f"outcome-{number}.txt"
            if not group.journal:
                (folder / f"outcome-{number}-stimuli.txt").write_text(text_of(lines[number - 1]))
            journal.write_bytes(group.journal or runner.journal(lines[number - 1]))
            names.append(str(journal))
    return names
