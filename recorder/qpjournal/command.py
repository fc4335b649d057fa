"""The words of a call, its files, and what is told."""

import gc
import subprocess
import sys
import tempfile
from collections.abc import Iterator
from contextlib import contextmanager
from pathlib import Path
from typing import NamedTuple

from qptools.program import program
from qpviewer.faults import Fault
from qpviewer.system import read_system
from qpviewer.system_parts import System

from .asserted import Tangled
from .follow import follow
from .making import MOST_BYTES, MOST_RECORDS, Made, make, make_ended
from .trace import Trace, read_trace
from .window import window

USAGE = """usage: qp_journal [--window] SYSTEM TRACE FOLDER
       qp_journal --follow DEVICE-OR-FILE SYSTEM [FOLDER]

Makes FOLDER/stimuli.txt and FOLDER/journal.txt of what qp_record.h recorded, for `qp check SYSTEM STIMULI JOURNAL`. A trace of which
something is missing is refused.
  --window   the trace just stops, or something of it is missing: cuts it back to whole steps and stimuli before that, and ends it by an
             assertion of an object and a source that it adds. FOLDER/system.toml is then the system to judge by.
  --follow   prints the run in words while the trace comes, until its end, the run's or an interrupt, and has it judged then by the
             program, a window of it if something is missing. FOLDER gets the trace's bytes and all that is judged.
"""

DONE, BAD_WORDS, BAD_FILE, NOT_WRITTEN, UNANSWERED = 0, 1, 2, 7, 125


class Judgeable(NamedTuple):
    """A journal with its stimuli, and the text of the system to judge them by where it isn't the given one."""

    made: Made
    system: str | None = None


def main(words: list[str]) -> int:
    """Writes the files; answers the status."""
    gc.disable() # a trace has millions of small parts, and no cycles among them
    if words in (["-h"], ["--help"]):
        print(USAGE, end="")
        return DONE
    option = words[0] if words and words[0] in ("--window", "--follow") else ""
    files = words[bool(option):]
    if len(files) != 3 and (option != "--follow" or len(files) != 2) or any(word.startswith("-") for word in files):
        print(USAGE, end="", file=sys.stderr)
        return BAD_WORDS
    try:
        if option == "--follow":
            return _follow(*files)
        return _make(Path(files[0]), Path(files[1]), Path(files[2]), option == "--window")
    except _Refused as refused:
        return tell(str(refused), BAD_FILE)


class _Refused(Exception):
    """A file that can't be taken, and why."""


@contextmanager
def _naming(name: Path | str) -> Iterator[None]:
    """Whose fault it is."""
    try:
        yield
    except Fault as fault:
        raise _Refused(f"{name}: {fault}") from None
    except OSError as error:
        raise _Refused(f"{name}: {error.strerror}") from None


def _make(system_file: Path, trace_file: Path, folder: Path, is_window: bool) -> int:
    with _naming(system_file):
        text = system_file.read_bytes()
        system = read_system(text)
    with _naming(trace_file):
        trace = read_trace(trace_file.read_bytes())
        if not is_window and not trace.is_whole:
            return _refuse(trace_file, trace)
        found = judgeable(text.decode(), system, trace)
    for note in found.made.notes:
        tell(note)
    if is_window and found.system is None:
        tell("nothing is missing of the trace, so its journal is that of the whole run")
        found = Judgeable(found.made, text.decode())
    return _write(folder, found)


def _follow(name: str, system_file: str, folder: str = "") -> int:
    """Follows a trace, and answers the status of `qp check`."""
    with _naming(system_file):
        text = Path(system_file).read_bytes()
        system = read_system(text)
    with tempfile.TemporaryDirectory() as own:
        kept = Path(folder or own)
        with _naming(kept):
            kept.mkdir(parents=True, exist_ok=True)
        with _naming(name):
            trace = follow(name, system, kept / "trace.bin")
            found = judgeable(text.decode(), system, trace)
        for note in found.made.notes:
            tell(note)
        status = _write(kept, found, is_told=bool(folder))
        return status or _judge(kept / "system.toml" if found.system else Path(system_file), kept)


def _judge(system: Path, folder: Path) -> int:
    """Prints the program's verdict."""
    judge = program()
    if not judge:
        return tell("no proved program answers here, so nothing judges the run: ./qp --version says why", UNANSWERED)
    done = subprocess.run([judge, "check", system, folder / "stimuli.txt", folder / "journal.txt"])
    return done.returncode


def judgeable(text: str, system: System, trace: Trace) -> Judgeable:
    """What is judged of a trace: all of it where nothing is missing, and else a window. Raises `Fault`."""
    if trace.is_whole:
        try:
            return Judgeable(make_ended(system, trace))
        except Tangled as tangled:
            trace.told.append(str(tangled))
    system_text, made = window(text, system, make(system, trace))
    return Judgeable(made, system_text)


def _refuse(name: Path, trace: Trace) -> int:
    for line in trace.told:
        tell(line)
    return tell(f"{name}: the trace isn't whole, so no journal is made of it; --window makes one of what stands before", BAD_FILE)


def _write(folder: Path, found: Judgeable, is_told: bool = True) -> int:
    texts = {"stimuli.txt": found.made.stimuli_text(), "journal.txt": found.made.journal_text()}
    if found.system is not None:
        texts["system.toml"] = found.system
        if is_told:
            tell(f"judge it by {folder / 'system.toml'}")
    for limit in beyond(texts["journal.txt"], found.made):
        tell(limit)
    try:
        folder.mkdir(parents=True, exist_ok=True)
        for file, content in texts.items():
            (folder / file).write_text(content)
    except OSError as error:
        return tell(f"{folder}: {error.strerror}", NOT_WRITTEN)
    return DONE


def beyond(journal: str, made: Made) -> list[str]:
    """The limits of `qp check` that a journal exceeds."""
    found = [f"lane {number} has {len(lane)} records; `qp check` takes {MOST_RECORDS}" for number, lane in enumerate(made.lanes)
             if len(lane) > MOST_RECORDS]
    size = len(journal)
    return found + [f"the journal has {size} bytes; `qp check` takes {MOST_BYTES}"] * (size > MOST_BYTES)


def tell(line: str, status: int = DONE) -> int:
    print(f"qp_journal: {line}", file=sys.stderr)
    return status
