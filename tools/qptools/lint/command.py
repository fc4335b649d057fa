"""`./qp lint`: reads a system, and says what in it can't do what it seems to."""

import sys

from qpviewer.faults import Fault
from qpviewer.files import Unread, read_file
from qpviewer.positions import Lines, read_lines
from qpviewer.stimuli import read_stimuli
from qpviewer.system import read_system, read_tree
from qpviewer.system_parts import System

from .rules import Finding, findings, look

USAGE = """usage: qp lint SYSTEM [STIMULI ..]

Says of a system that the program takes what in it can't do what it seems to: a signal that is published and nobody subscribes to, one that
nobody posts, a state that nothing reaches, a row that is never taken, `defer` in an object that keeps no deferred events, a margin or a
reserve that no queue or pool ever has free, a start that posts to an object which starts later.

A signal that a row takes and no chart posts may come from outside, so it is told only where stimuli are given and none of them has it.

Each finding is a line FILE:LINE: MESSAGE. Status: 0 for none, 1 where there is any, 2 where a file can't be read; `qp run` says then which
fault comes first."""


def main(words: list[str]) -> int:
    if words[:1] in (["-h"], ["--help"]):
        print(USAGE)
        return 0
    if not words or any(word.startswith("-") for word in words):
        print(USAGE, file=sys.stderr)
        return 2
    name, *others = words
    try:
        found, lines = _of_files(name, others)
    except Unread as unread:
        print(f"qp lint: {unread}", file=sys.stderr)
        return 2
    for line, said in sorted({(lines.line_of(finding.path), finding.words) for finding in found}):
        print(f"{name}:{line}: {said}")
    return 1 if found else 0


def _of_files(name: str, others: list[str]) -> tuple[list[Finding], Lines]:
    tree, system, lines = read_file(name, lambda data: (read_tree(data), read_system(data), read_lines(data)))
    outside = {signal for other in others for signal in read_file(other, lambda data: _signals_of(data, system))} if others else None
    places = {table["name"]: number for number, table in enumerate(tree["object"], 1)}
    try:
        return findings(look(system, places, outside)), lines
    except Fault as fault:
        raise Unread(f"{name}: {fault}") from None


def _signals_of(data: bytes, system: System) -> list[str]:
    """The signals of the stimuli that post or publish."""
    words = [line.replace("(", " ").split(" ") for source in read_stimuli(data, system) for line in source]
    return [of[2] if of[0] == "post" else of[1] for of in words if of[0] in ("post", "publish")]
