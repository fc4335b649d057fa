"""The command of `tools/qpexplore`: what the program qp-explore does, unproved but for the judge."""

import argparse
import sys
import tempfile
from pathlib import Path
from typing import NoReturn

from qpviewer.files import Unread, read_file
from qpviewer.naming import signed
from qpviewer.stimuli import read_stimuli
from qpviewer.system import read_system
from qpviewer.system_parts import System

from ..program import call, is_built
from .calls import Told
from .machine import PORT, QK, Endless, Machine
from .search import Bounded, Explored, Outcome, explore, journal_of
from .spot import Spot

USAGE = """usage: qpexplore [OPTION ..] SYSTEM STIMULI      goes through every order that a kernel allows, and says what they come to
         --kernel qk|port                     the kernel (port)
         --most N                             the most states (100000)
         --until assertion|refusal|none       what ends the search: an assertion; that or a refused call; nothing (assertion)
         --out summary|journal                what is printed: what was found, or a journal that shows what ended it (summary)
         --end N                              prints a journal of the end that stands there in the summary, in the place of all that

Ends with 0 where each order was gone through and nothing was met, 3 where one asserts, 9 where a call is refused, 10 where there are more states
or a journal isn't lawful, 1 for bad words, 2 for a file with a fault, 125 where no program is there to judge. docs/EXPLORE.md says what is covered."""

DONE, WRONG, FAULT, ASSERTED, REFUSED, UNKNOWN, NO_PROGRAM = 0, 1, 2, 3, 9, 10, 125
_REFUSALS = ("full", "short", "nodefer")


class _BadWords(Exception):
    """Words that aren't a call."""


class _Reader(argparse.ArgumentParser):
    def error(self, message: str) -> NoReturn:
        raise _BadWords(message)


class _Met(Exception):
    """What ends the search: a place, and what was told there."""

    def __init__(self, place: int, told: Told):
        super().__init__(place, told)
        self.place, self.told = place, told


def main(words: list[str]) -> int:
    """Explores; answers the status."""
    if not words or words[0] in ("-h", "--help"):
        print(USAGE, file=sys.stdout if words else sys.stderr)
        return DONE if words else WRONG
    try:
        values = _read(words)
        system = read_file(values.system, read_system)
        stimuli = read_file(values.stimuli, lambda data: read_stimuli(data, system))
    except _BadWords as bad:
        print(f"qpexplore: {bad}", file=sys.stderr)
        return WRONG
    except Unread as fault:
        print(f"qpexplore: {fault}", file=sys.stderr)
        return FAULT
    return _explored(values, Machine(system, stimuli, values.kernel))


def _read(words: list[str]) -> argparse.Namespace:
    reader = _Reader(prog="qpexplore", add_help=False, allow_abbrev=False)
    reader.add_argument("--kernel", choices=(QK, PORT), default=PORT)
    reader.add_argument("--most", type=int, default=100_000)
    reader.add_argument("--until", choices=("assertion", "refusal", "none"), default="assertion")
    reader.add_argument("--out", choices=("summary", "journal"), default="summary")
    reader.add_argument("--end", type=int)
    reader.add_argument("system", metavar="SYSTEM")
    reader.add_argument("stimuli", metavar="STIMULI")
    values = reader.parse_args(words)
    if not 1 <= values.most <= 10_000_000:
        raise _BadWords("--most is a number, 1 to 10000000")
    if values.end is not None and values.end < 1:
        raise _BadWords("--end is a number, 1 or more")
    return values


def _explored(values: argparse.Namespace, machine: Machine) -> int:
    if values.end:
        return _ended(values, machine)
    ends = {"assertion": ("assert",), "refusal": ("assert", *_REFUSALS), "none": ()}[values.until]

    def look(place: int, told: tuple[Told, ...], spot: Spot) -> None:
        for one in told:
            if one.word in ends:
                raise _Met(place, one)

    found = Explored()
    try:
        explore(machine, values.most, look, found)
    except Bounded:
        _print(values, machine.system, found, "not all of them")
        print(f"qp: more than {values.most} states", file=sys.stderr)
        return UNKNOWN
    except _Met as met:
        return _shown(values, machine, found, met)
    _print(values, machine.system, found, "all of them")
    return DONE


def _ended(values: argparse.Namespace, machine: Machine) -> int:
    """The journal of an end, which the judge calls lawful."""
    found = Explored()
    try:
        explore(machine, values.most, None, found)
    except Bounded:
        pass
    if values.end > len(found.outcomes):
        print(f"qp: no end {values.end}", file=sys.stderr)
        return UNKNOWN
    text = journal_of(machine, found, list(found.outcomes.values())[values.end - 1])
    if fault := _fault_of(values, text):
        print(fault, file=sys.stderr)
        return UNKNOWN if is_built() else NO_PROGRAM
    print(text, end="")
    return DONE


def _fault_of(values: argparse.Namespace, text: str) -> str:
    """What the judge says of a journal that isn't lawful; nothing where it is."""
    if not is_built():
        return "qpexplore: no program is there to judge the journal: ./qp build"
    with tempfile.TemporaryDirectory() as folder:
        journal = Path(folder, "journal")
        journal.write_text(text)
        judged = call(["check", "--", values.system, values.stimuli, str(journal)])
    return "" if judged.output == b"lawful\n" else f"qp: a way without a lawful journal: {judged.note.strip()}"


def _shown(values: argparse.Namespace, machine: Machine, found: Explored, met: _Met) -> int:
    """What was met, by a journal that the judge calls lawful."""
    try:
        text = journal_of(machine, found, met.place)
    except Endless:
        print("qp: a way without an end", file=sys.stderr)
        return UNKNOWN
    if fault := _fault_of(values, text):
        print(fault, file=sys.stderr)
        return UNKNOWN if is_built() else NO_PROGRAM
    if values.out == "journal":
        print(text, end="")
    else:
        _print(values, machine.system, found, "not all of them")
    if met.told.word == "assert":
        print(f"qp: assertion {met.told.code} in lane {met.told.lane}", file=sys.stderr)
        return ASSERTED
    print("qp: met refusal", file=sys.stderr)
    return REFUSED


def _print(values: argparse.Namespace, system: System, found: Explored, how: str) -> None:
    """What was found."""
    lines = [f"explored {found.states} states by {found.moves} moves, {how}", f"ends: {found.ends()}"]
    lines += [_end(system, outcome) for outcome in found.outcomes]
    lines += ["  end 3"] * bool(found.assertions)
    print("\n".join(lines))


def _end(system: System, outcome: Outcome) -> str:
    """The line of an end: of each object its state, its variables, and how many events it keeps deferred, if any."""
    parts = []
    for owner, leaf, values, deferred in zip(system.objects, outcome.states, outcome.vars, outcome.deferred):
        names = [f"{name}={signed(value % 2**64)}" for name, value in zip(sorted(owner.vars), values)]
        parts.append(" ".join([owner.name, owner.chart.states[leaf - 1].name, *names, *([f"deferred={deferred}"] if deferred else [])]))
    return "  ".join(["  end 0", *parts])
