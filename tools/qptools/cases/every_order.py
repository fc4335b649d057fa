"""Cases of which every order is gone through: what never holds, what holds at each quiet end, and what holds at some place."""

import tempfile
import time
from pathlib import Path

from qpviewer.files import Unread, read_file
from qpviewer.faults import Fault
from qpviewer.stimuli import read_stimuli
from qpviewer.system import read_system
from qpviewer.system_parts import System

from ..explore.calls import Told
from ..explore.machine import Endless, Machine
from ..explore.search import Bounded, Explored, explore, journal_of
from ..explore.spot import Spot
from ..program import call
from .case_file import Case
from .properties import BadProperty, Property, Seen, read_property
from .tried import Failure, Tried


def try_orders(case: Case, kernel: str) -> Tried:
    """Goes through every order of a case under a kernel, and says what of its properties fails."""
    begun = time.monotonic()
    failures = _failures(case, kernel)
    return Tried(case, kernel, failures, None, time.monotonic() - begun, every_order=True)


def _failures(case: Case, kernel: str) -> list[Failure]:
    try:
        system = read_file(str(case.system), read_system)
        stimuli = (read_stimuli(case.stimuli.encode(), system) if isinstance(case.stimuli, str)
                   else read_file(str(case.stimuli), lambda data: read_stimuli(data, system)))
    except Unread as fault:
        return [Failure(case.place(), str(fault), [])]
    except Fault as fault:
        return [Failure(case.place("stimuli"), str(fault), [])]
    machine, failures = Machine(system, stimuli, kernel), list[Failure]()
    try:
        looked = _Looked(machine, *(_read(case, key, system) for key in ("never", "ends", "reaches")))
    except _Bad as bad:
        return [bad.failure]
    try:
        found = explore(machine, case.most, looked.look)
    except Bounded:
        return [Failure(case.place("most"), f"there are more than {case.most} states", [])]
    for prop, place in looked.met.items():
        failures.append(_shown(case, "never", f"{prop.text!r} holds", machine, found, place))
    for prop, place in looked.missed.items():
        failures.append(_shown(case, "ends", f"{prop.text!r} doesn't hold at an end", machine, found, place))
    return failures + [Failure(case.place("reaches"), f"{prop.text!r} holds at no place of any order", []) for prop in looked.unreached]


class _Bad(Exception):
    """A key whose text is no test."""

    def __init__(self, failure: Failure):
        super().__init__(failure)
        self.failure = failure


def _read(case: Case, key: str, system: System) -> list[Property]:
    properties = []
    for text in getattr(case, key):
        try:
            properties.append(read_property(text, system))
        except BadProperty as bad:
            raise _Bad(Failure(case.place(key), f"{text!r}: {bad}", [])) from None
    return properties


class _Looked:
    """What was seen of properties: the first place at which one holds that never may, and at which one fails that each end has; and those that hold
    nowhere so far."""

    def __init__(self, machine: Machine, never: list[Property], ends: list[Property], reaches: list[Property]):
        self._machine, self._never, self._ends = machine, never, ends
        self.unreached = reaches
        self.met: dict[Property, int] = {}
        self.missed: dict[Property, int] = {}

    def look(self, place: int, told: tuple[Told, ...], spot: Spot) -> None:
        seen = Seen(self._machine, spot, told)
        for prop in self._never:
            if prop not in self.met and prop.is_asked(seen) and prop.holds(seen):
                self.met[prop] = place
        self.unreached = [prop for prop in self.unreached if not (prop.is_asked(seen) and prop.holds(seen))]
        if self._machine.is_end(spot):
            for prop in self._ends:
                if prop not in self.missed and not prop.holds(seen):
                    self.missed[prop] = place


def _shown(case: Case, key: str, words: str, machine: Machine, found: Explored, place: int) -> Failure:
    """What fails, with the journal of the way to it."""
    moves = len(found.path(place))
    try:
        text = journal_of(machine, found, place, case.budget)
    except Endless:
        return Failure(case.place(key), f"{words}, behind {moves} moves; no run by them comes to an end", [])
    return Failure(case.place(key), f"{words}, behind {moves} moves", [_kept(case, text)])


def _kept(case: Case, text: str) -> str:
    """Where the journal was written, and what the judge says of it where it isn't lawful."""
    folder = Path(tempfile.mkdtemp(prefix="qptest-"))
    stimuli = case.stimuli if isinstance(case.stimuli, Path) else folder / "stimuli.txt"
    if isinstance(case.stimuli, str):
        stimuli.write_text(case.stimuli)
    journal = folder / "journal.txt"
    journal.write_text(text)
    judged = call(["check", str(case.system), str(stimuli), str(journal)])
    verdict = "lawful" if judged.output == b"lawful\n" else f"not lawful: {judged.note.strip()}"
    return f"the journal of it is {verdict}: {journal}"
