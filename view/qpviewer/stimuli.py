"""Reads stimuli (docs/FORMATS.md, section 3) as far as they are drawn: each as its line."""

import re

from .faults import Fault
from .system_parts import System

SOURCES = 16
_EVENT = r"([A-Za-z_][A-Za-z0-9_]*)(?:\((?:[0-9]+)(?:,[0-9]+)*\))?"
_SOURCE = re.compile(r"source ([0-9]+)", re.ASCII)
_POST = re.compile(rf"post ([A-Za-z_][A-Za-z0-9_]*) {_EVENT}(?: margin [0-9]+)?(?: reserve [0-9]+)?", re.ASCII)
_PUBLISH = re.compile(rf"publish {_EVENT}(?: reserve [0-9]+)?", re.ASCII)
_OTHER = re.compile(r"tick [0-3]|settle", re.ASCII)


def read_stimuli(data: bytes, system: System) -> list[list[str]]:
    """The lines of each source in order. Raises `Fault` with the first line that isn't one of a source."""
    sources: list[list[str]] = []
    names = {entry.name for entry in system.objects}
    for place, line in enumerate(data.decode("latin-1").split("\n"), 1):
        if not line or line.startswith("#"):
            continue
        if head := _SOURCE.fullmatch(line):
            if head[1] != str(len(sources) + 1) or len(sources) == SOURCES:
                raise Fault(f"line {place}", f"sources are numbered from 1, at most {SOURCES} of them (code 4)")
            sources.append([])
            continue
        _check(line, place, names, system)
        if not sources:
            raise Fault(f"line {place}", "a stimulus stands before any source (code 4)")
        sources[-1].append(line)
    return sources


def _check(line: str, place: int, names: set[str], system: System) -> None:
    post, publish = _POST.fullmatch(line), _PUBLISH.fullmatch(line)
    if not (post or publish or _OTHER.fullmatch(line)):
        raise Fault(f"line {place}", "isn't a line of stimuli (code 1, or 3 for a number out of range)")
    if post and post[1] not in names:
        raise Fault(f"line {place}", f"the object {post[1]!r} isn't declared (code 2)")
    signal = post[2] if post else publish[1] if publish else None
    if signal is not None and signal not in system.signals:
        raise Fault(f"line {place}", f"the signal {signal!r} isn't declared (code 2)")
