"""A run of an example, its journal, and its verdict."""

import os
import subprocess
from dataclasses import dataclass
from pathlib import Path

from qpjournal.command import judgeable
from qpjournal.making import Made
from qpjournal.trace import Trace, read_trace
from qpviewer.journal import Journal, read_journal
from qpviewer.stimuli import read_stimuli
from qpviewer.system import read_system
from qpviewer.system_parts import System

from .places import PROGRAM, Run

LAWFUL = "lawful"
#: Seconds after which a run is given up; it may hang where a fault is seeded.
PATIENCE = 60


class NotRun(Exception):
    """A run that ended otherwise than it has to, with what it said."""


@dataclass
class Judged:
    """A judged run; its files stand in a folder."""

    system: System
    made: Made
    journal: Journal
    stimuli: list[list[str]]
    verdict: str
    files: tuple[Path, Path, Path]


def run(program: Path, stimuli: Path, trace: Path, fault: int = 0, at_once: bool = False) -> None:
    """A run under threads that meet often; at an assertion they stop at once, or each at its step's end."""
    words = [program, stimuli, trace, *([str(fault)] if fault else [])]
    meet = {"QF_JITTER": "1"} | ({"QF_AT_ONCE": "1"} if at_once else {})
    try:
        done = subprocess.run(words, env=os.environ | meet, stderr=subprocess.PIPE, text=True, timeout=PATIENCE)
    except subprocess.TimeoutExpired:
        raise NotRun(f"{program.name}: no end after {PATIENCE} s") from None
    if done.returncode or done.stderr:
        raise NotRun(f"{program.name}: status {done.returncode}: {done.stderr}")


def judge(of: Run, trace: Path, folder: Path) -> Judged:
    """The verdict on a trace."""
    return judge_trace(of.system, read_trace(trace.read_bytes()), folder)


def judge_trace(system_file: Path, trace: Trace, folder: Path) -> Judged:
    """The verdict on what `qp_journal --window` makes of a trace."""
    text = system_file.read_text()
    found = judgeable(text, read_system(text.encode()), trace)
    if found.system is not None:
        folder.mkdir(exist_ok=True)
        system_file = folder / "system.toml"
        system_file.write_text(found.system)
    return judge_made(read_system((found.system or text).encode()), system_file, found.made, folder)


def judge_made(system: System, system_file: Path, made: Made, folder: Path) -> Judged:
    folder.mkdir(exist_ok=True)
    stimuli, journal = folder / "stimuli.txt", folder / "journal.txt"
    stimuli.write_text(made.stimuli_text())
    journal.write_text(made.journal_text())
    files = (system_file, stimuli, journal)
    verdict = ask("check", *files)
    read = read_journal(journal.read_bytes())
    return Judged(system, made, read, read_stimuli(stimuli.read_bytes(), system), verdict, files)


def ask(command: str, *files: Path) -> str:
    """What the program says, without its name."""
    done = subprocess.run([PROGRAM, command, *files], stdout=subprocess.PIPE, stderr=subprocess.PIPE, text=True)
    return (done.stdout or done.stderr).strip().removeprefix("qp: ")
