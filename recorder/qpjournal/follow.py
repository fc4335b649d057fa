"""Follows a trace while its bytes come: prints the run in words, and has it judged at its end.

The words are those of `view/qpview --text`. A line is printed as soon as its start, step or stimulus is whole, and so is all that stands
before it on each word.
"""

import errno
import os
import select
import signal
import sys
import termios
import time
import tty
from collections import Counter
from collections.abc import Iterator
from contextlib import contextmanager
from pathlib import Path
from types import FrameType

from qpviewer.faults import Fault
from qpviewer.journal import PORT, Journal, Record
from qpviewer.run_text import run_text
from qpviewer.story import Story
from qpviewer.system_parts import System

from .making import BUDGET, FORM, Made, make
from .pieces import Pieces
from .trace import Trace, trace_of
from .window import records_of, whole

#: The most bytes that are read at once, how long to wait for some, in seconds, and how often to read behind an interrupt.
AT_ONCE, PATIENCE, MOST_LEFT = 1 << 16, 0.2, 64


class Follower:
    """Takes bytes, and prints what is new in them."""

    def __init__(self, system: System):
        self._system = system
        self._pieces = Pieces()
        self._printed: Counter[str] = Counter()
        self._has_news = False
        #: Whether the framework said that the run has ended, and all that it recorded is here.
        self.has_ended = False
        #: No more is told before this moment: telling takes its time, and more so the longer the run is.
        self._rests_until = 0.0

    def take(self, data: bytes) -> None:
        count = len(self._pieces.whole)
        self._pieces.feed(data)
        if new := self._pieces.whole[count:]:
            self._has_news = True
            self.has_ended = any(piece.is_last for piece in new) and trace_of(self._pieces).is_whole

    def tell(self) -> None:
        """Prints the lines that are whole, unless it did just now."""
        if not self._has_news or time.monotonic() < self._rests_until:
            return
        began = time.monotonic()
        trace = trace_of(self._pieces)
        _warn(line for line in trace.told if line not in trace.open and not self._is_printed(line))
        made = make(self._system, trace)
        lanes = records_of(made)
        kept = whole(made, lanes, len(self._system.objects))
        lines = self._words(made, [lane[:count] for lane, count in zip(lanes, kept)])
        self._print(lines[1:len(lines) - self._count_of_last()])
        self._has_news = False
        self._rests_until = 2 * time.monotonic() - began

    def finish(self) -> Trace:
        """Prints what is left, also of steps that aren't done, and how the run ends. Raises `Fault` where nothing came of a trace."""
        self._pieces.finish()
        trace = trace_of(self._pieces)
        made = make(self._system, trace)
        lines = self._words(made, records_of(made))
        self._print(lines[1:len(lines) - self._count_of_last()])
        last = lines[len(lines) - self._count_of_last():]
        print("\n".join(last if trace.is_whole else ["the run goes on, or its end is missing", *last[1:]]), flush=True)
        return trace

    def _count_of_last(self) -> int:
        """How many lines say how a run ended: the end, and one for each object and pool."""
        return 1 + len(self._system.objects) + len(self._system.pools)

    def _words(self, made: Made, lanes: list[list[Record]]) -> list[str]:
        journal = Journal(FORM, PORT, BUDGET, lanes, made.end)
        return run_text(Story(self._system, made.sources, journal)).splitlines()

    def _print(self, lines: list[str]) -> None:
        """Prints those that weren't printed yet."""
        left = self._printed.copy()
        for line in lines:
            if left[line]:
                left[line] -= 1
            else:
                self._printed[line] += 1
                print(line)
        sys.stdout.flush()

    def _is_printed(self, line: str) -> bool:
        """Whether a warning was printed; from now on it is."""
        was = self._printed[f"! {line}"] > 0
        self._printed[f"! {line}"] = 1
        return was


def _warn(lines: Iterator[str]) -> None:
    for line in lines:
        print(f"qp_journal: {line}", file=sys.stderr, flush=True)


def follow(name: str, system: System, keep: Path | None) -> Trace:
    """Follows a device or a file up to its end, the run's, or an interrupt, and keeps its bytes in a file, if one is named. Raises
    `Fault` and `OSError`."""
    follower = Follower(system)
    with _opened(name) as source, open(keep or os.devnull, "wb") as copy:
        def take(data: bytes) -> None:
            copy.write(data)
            copy.flush()
            follower.take(data)

        try:
            with _interrupts():
                while not follower.has_ended and (data := _read(source, PATIENCE)) is not None:
                    take(data)
                    follower.tell()
        except KeyboardInterrupt:
            for _ in range(MOST_LEFT): # what came meanwhile
                take(_read(source, 0) or b"")
    return follower.finish()


def _read(source: int, patience: float) -> bytes | None:
    """The next bytes, perhaps none yet; nothing at the end of a file, or where the other side of a terminal is gone."""
    ready, _, _ = select.select([source], [], [], patience)
    if not ready:
        return b""
    try:
        return os.read(source, AT_ONCE) or None
    except OSError as error:
        if error.errno == errno.EIO:
            return None
        raise


@contextmanager
def _opened(name: str) -> Iterator[int]:
    """A device or a file; a terminal hands on bytes as they are meanwhile."""
    source = os.open(name, os.O_RDONLY | os.O_NOCTTY)
    former = termios.tcgetattr(source) if os.isatty(source) else None
    try:
        if former:
            tty.setraw(source, termios.TCSANOW)
        yield source
    finally:
        if former:
            try:
                termios.tcsetattr(source, termios.TCSANOW, former)
            except termios.error: # it is gone
                pass
        os.close(source)


@contextmanager
def _interrupts() -> Iterator[None]:
    """Who is asked to end ends as at an interrupt of the keyboard."""
    def interrupt(number: int, frame: FrameType | None) -> None:
        raise KeyboardInterrupt

    former = signal.signal(signal.SIGTERM, interrupt)
    try:
        yield
    finally:
        signal.signal(signal.SIGTERM, former)
