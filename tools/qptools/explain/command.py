"""Explains what the program said of a call: the lines below its own line."""

import os
import shlex
import subprocess
import sys
from pathlib import Path

from qpviewer.faults import Fault
from qpviewer.files import Run, Unread, read_file, read_run
from qpviewer.journal import read_journal
from qpviewer.stimuli import read_stimuli
from qpviewer.system import read_system
from qpviewer.system_parts import System

from ..program import UNANSWERED, Answer, call, is_built
from .call import Call, read_call
from .hints import hints
from .line_faults import explain_frames, explain_journal, explain_stimuli
from .misplaced import misplaced
from .refusal import Refusal, read_refusal
from .runs import explain_long_stop, explain_stop, explain_verdict
from .system_faults import explain_system
from .words import explain_words

USAGE = """usage: qp explain COMMAND [OPTION ..] FILE ..

Calls the program with these words, prints its line of standard error, and below it what that line means and where it
stands in your files. What the call itself prints is dropped. Ends with the status of the call."""

#: A run is made once more for its journal only where it takes no longer than this.
SECONDS = 10.0
#: Files that are longer aren't read for an explanation, and a run's journal that is longer is not told as a whole: that takes seconds.
LONGEST = 1 << 20
#: Lines are cut at this width, but for the words of a call, which are there to be called.
WIDTH = 300
CALL = "to see it: "
#: So many files of a folder are named.
_NAMED = 4
INDENT = "    "

#: What stands before the explanation of a run with threads that was made once more, and in its place where that one ended otherwise.
_ANOTHER = "with threads each run is another; one more that ended so has this:"
_OTHERWISE = "with threads each run is another, and one more ended otherwise: write the journal to a file, and look at it with view/qpview"


def explanation(words: list[str], note: str, output: bytes | None = None) -> list[str]:
    """The lines that explain a note; `output` is the journal as text that a run printed, where it is at hand."""
    refusal = read_refusal(note)
    if refusal is None:
        return []
    made = read_call(words)
    try:
        return [_cut(line) for line in _explain(refusal, made, words, output) if line]
    except _Unreadable as unreadable:
        return [str(unreadable)]
    except (Fault, Unread, OSError):
        return []


class _Unreadable(Exception):
    """Why a file isn't read for an explanation."""


def _cut(line: str) -> str:
    return f"{line[:WIDTH - 3]}..." if len(line) > WIDTH and not line.startswith(CALL) else line


def _need_short(names: list[str]) -> None:
    """Raises `_Unreadable` for a file that can be read only once, as a pipe, or that is too long."""
    for name in names:
        path = Path(name)
        if path.exists() and not path.is_file():
            raise _Unreadable(f"{name} isn't a file on a disk, so it isn't read again")
        if path.is_file() and path.stat().st_size > LONGEST:
            raise _Unreadable(f"{name} has {path.stat().st_size} bytes; what is longer than {LONGEST} isn't explained")


def _explain(refusal: Refusal, made: Call, words: list[str], output: bytes | None) -> list[str]:
    match refusal.kind:
        case "fault":
            return _file_fault(refusal, made)
        case "absent":
            return [_absent(refusal.file)]
        case "too long":
            return [f"a file has at most 67108864 bytes, this one {refusal.place}"]
        case "bad words":
            return [explain_words(words)]
        case "assertion" | "spent":
            if output is not None:
                return _stop(made.files[:2], output)
            again = _once_more(made)
            if made.is_threaded() and (again is None or read_refusal(again.note) != refusal):
                return [_OTHERWISE]
            told = _stop(made.files[:2], again.output) if again else []
            return [_ANOTHER, *told] if made.is_threaded() else told
        case "broken":
            return _verdict(refusal.place, made.files[:3])
        case "memory":
            return ["memory was refused: give the machine more, or the run fewer stimuli or a lower --budget"]
        case "read fault":
            return _unread(made.files)
        case "write fault":
            return ["the output could not be written: is the disk full, or was the pipe closed?"]
    return []


def _file_fault(refusal: Refusal, made: Call) -> list[str]:
    if fault := misplaced(made):
        return [fault]
    kind = made.kind_of(refusal.file)
    if refusal.code == 8 and made.command == "migrate":
        return ["the journal has what form 1 doesn't have: kernel qv, or a `rest`"]
    _need_short([refusal.file, *(made.files[:1] if kind == "STIMULI" else [])])
    data = Path(refusal.file).read_bytes()
    if kind == "SYSTEM":
        return explain_system(refusal.file, data, refusal.code, "" if refusal.place == "-" else refusal.place)
    if kind == "STIMULI":
        return explain_stimuli(refusal.file, data, refusal.code, int(refusal.place), _system(made.files[0]))
    if kind == "JOURNAL":
        return explain_journal(refusal.file, data, refusal.code, int(refusal.place))
    return explain_frames(refusal.file, data, refusal.code, int(refusal.place))


def _unread(names: list[str]) -> list[str]:
    """Which of a call's files couldn't be read, as far as that shows."""
    for name in names:
        if Path(name).is_dir():
            return [f"{name}: is a folder: name a file in it" + _within(Path(name))]
        if Path(name).is_file() and not os.access(name, os.R_OK):
            return [f"{name}: you may not read it: chmod +r {shlex.quote(name)}"]
    return ["a file could not be read: a disk failed, or a pipe was closed"]


def _within(folder: Path) -> str:
    """The files of a folder that may be meant."""
    try:
        found = sorted(inner.name for inner in folder.iterdir() if inner.suffix in (".toml", ".txt"))[:_NAMED]
    except OSError:
        return ""
    return f", as {', '.join(found)}" if found else ""


def _system(name: str) -> System | None:
    try:
        return read_file(name, read_system)
    except Unread:
        return None


def _absent(name: str) -> str:
    path = Path(name)
    folder = path.parent if path.parent.is_dir() else Path(".")
    near = [other.name for other in sorted(folder.iterdir()) if other.name.lower() == path.name.lower()][:1]
    return f"there is no file {name} in {Path.cwd()}" + (f"; did you mean {near[0]}?" if near else "")


def _run(files: list[str], journal: bytes) -> Run:
    system = read_file(files[0], read_system)
    return Run(system, read_file(files[1], lambda data: read_stimuli(data, system)), read_journal(journal))


def _verdict(verdict: str, files: list[str]) -> list[str]:
    words = f"{shlex.join(files)} '{verdict}'"
    try:
        _need_short(files)
    except _Unreadable as unreadable:
        return [str(unreadable), f"{CALL}view/qpplace {words}"]
    return [*explain_verdict(verdict, read_run(*files)), f"{CALL}view/qpview {words} > run.html"]


def _stop(files: list[str], journal: bytes) -> list[str]:
    """Why a run of these two files was stopped, which its journal says."""
    _need_short(files)
    if len(journal) > LONGEST:
        return explain_long_stop(read_file(files[0], read_system), journal)
    return explain_stop(_run(files, journal))


def _once_more(made: Call) -> Answer | None:
    """The answer of a run that is made once more for its journal; none where that takes too long, or where a file can be read only
    once."""
    if any(not Path(name).is_file() for name in made.files):
        return None
    try:
        return call(made.to_journal(), SECONDS)
    except subprocess.TimeoutExpired:
        return None


def _hints(made: Call) -> list[str]:
    """What a system that is taken may have got wrong all the same."""
    try:
        _need_short(made.files[:1])
    except _Unreadable:
        return []
    return hints(system) if made.files and (system := _system(made.files[0])) else []


def main(words: list[str]) -> int:
    """Explains a call; with `--note FILE` in front, one that has been made and whose line is in that file; with `--words` in front,
    says what is wrong with the words of one that is still to be made."""
    if words[:1] == ["--note"] and len(words) > 1:
        lines = explanation(words[2:], Path(words[1]).read_text(errors="replace"))
        print("".join(f"{INDENT}{line}\n" for line in lines), end="", file=sys.stderr)
        return 0
    if words[:1] == ["--words"]:
        if fault := explain_words(words[1:]):
            print(f"{INDENT}{_cut(fault)}", file=sys.stderr)
        return 0
    if not words or words[0] in ("-h", "--help"):
        print(USAGE)
        return 0
    if not is_built():
        print("qp: not built, and an explanation needs the program: `qp build`", file=sys.stderr)
        return UNANSWERED
    answer = call(words, stdin=sys.stdin.fileno() if sys.stdin else subprocess.DEVNULL)
    print(answer.note, end="")
    made = read_call(words)
    is_journal = made.command == "run" and made.options.get("--out", "journal") == "journal"
    told = explanation(words, answer.note, answer.output if is_journal and answer.status in (3, 4) else None)
    if not answer.status:
        told = ["status 0: nothing is refused", *_hints(made)]
    print("".join(f"{INDENT}{line}\n" for line in told), end="")
    return answer.status
