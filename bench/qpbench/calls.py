"""Calls of a program, and what each took."""

import os
import shutil
import subprocess
import tempfile
import time
from collections.abc import Callable, Iterator, Mapping, Sequence
from contextlib import contextmanager
from pathlib import Path
from typing import NamedTuple

from qptools.program import program as chosen

TOP = Path(os.path.abspath(__file__)).parent.parent.parent
#: GNU time, which is small: a process begins with the peak of the one that made it, and that of Python is large.
TIME = "/usr/bin/time"
#: A call of more seconds isn't made again.
LONG = 60.0


class Missing(Exception):
    """What isn't there."""


class Wrong(Exception):
    """A call that doesn't come to what it has to."""


class Took(NamedTuple):
    """Seconds of processors, seconds by the clock, and what stood on standard error."""

    processors: float
    clock: float
    note: str


class Programs(NamedTuple):
    """The program that is measured, and the one from before that is laid beside it."""

    now: Path
    before: Path | None

    def each(self) -> Iterator[tuple[str, Path]]:
        """Both by their names, or the one that is there."""
        yield "now", self.now
        if self.before:
            yield "before", self.before


def program() -> Path:
    """The program that answers here. Raises `Missing`."""
    found = chosen(TOP)
    if not found:
        raise Missing("the program isn't built: ./qp build")
    return found


def call(words: Sequence[str | Path], folder: Path, output: Path, status: int = 0, settings: Mapping[str, str] | None = None) -> Took:
    """Calls a program in a folder with its output in a file. Raises `Wrong` where it ends with another status."""
    note = folder / "note"
    with open(output, "wb") as out, open(note, "wb") as noted:
        begun = time.monotonic()
        made = subprocess.Popen(words, cwd=folder, stdin=subprocess.DEVNULL, stdout=out, stderr=noted, env={**os.environ, **(settings or {})})
        _, ended, used = os.wait4(made.pid, 0)
        clock = time.monotonic() - begun
    made.returncode = os.waitstatus_to_exitcode(ended)
    took = Took(used.ru_utime + used.ru_stime, clock, note.read_text(errors="replace").strip())
    if made.returncode != status:
        raise Wrong(f"{' '.join(map(str, words))}: status {made.returncode}, not {status}: {took.note}")
    return took


def peak(words: Sequence[str | Path], folder: Path, output: Path, status: int = 0) -> int:
    """The most bytes that a call had in memory."""
    if not shutil.which(TIME):
        raise Missing(f"GNU time isn't there: {TIME}")
    told = folder / "peak"
    call([TIME, "-f", "%M", "-o", told, *words], folder, output, status)
    return int(told.read_text().split()[-1]) * 1024


def least(tries: int, calls: Mapping[str, Callable[[], Took]]) -> dict[str, Took]:
    """The least of so many tries of each call, field by field. All are made in turn, so what else the machine does hits each alike.
    A call that takes long is made once."""
    found: dict[str, Took] = {}
    for _ in range(tries):
        for name, make in calls.items():
            known = found.get(name)
            if known and known.clock > LONG:
                continue
            took = make()
            if known:
                took = took._replace(processors=min(took.processors, known.processors), clock=min(took.clock, known.clock))
            found[name] = took
    return found


@contextmanager
def work_folder() -> Iterator[Path]:
    """A folder that is removed afterwards."""
    with tempfile.TemporaryDirectory(prefix="qp-bench-") as made:
        yield Path(made)
