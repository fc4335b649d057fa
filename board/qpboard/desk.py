"""The words of `board/desk`: those of `qp run`, for the tables of a system compiled on this machine."""

import subprocess
import sys
import tempfile
from pathlib import Path
from typing import NamedTuple

from qpviewer.faults import Fault
from qpviewer.files import Unread, read_file
from qpviewer.stimuli import read_stimuli
from qpviewer.system import read_system

from .asked import refused
from .building import DESK, HOST, STRICT, NotBuilt, compile_all, compiler, print_all
from .command import Differs

USAGE = """usage: desk [--kernel sim|qv] [--budget N] [--form 1|2] [--bits 64|32] SYSTEM STIMULI

Prints the tables of a system, compiles them with the interpreter board/qp_board.h by the C compiler (CC, or cc), runs them on the stimuli in one
thread, and writes the journal, the line and the status that the C program has: they are to be those of `qp run` with these words.
  --bits 32   values have 32 bits; one that has no room there ends the run with status 9, and nothing is written

Status beside those of `qp run`: 8 the tables that were read back aren't the system, 9 a value had no room, or a lane is full, 125
nothing was run.
"""
DONE, BAD_WORDS, BAD_FILE, DIFFERENT, NOT_RUN = 0, 1, 2, 8, 125
#: The number that a journal has for each kernel.
KERNELS = {"sim": 0, "qv": 3}
MOST_BUDGET = 1_000_000
_ALLOWED = {"--kernel": tuple(KERNELS), "--form": ("1", "2"), "--bits": ("64", "32")}


class BadWords(Exception):
    """Words that aren't a call."""


class Asked(NamedTuple):
    """What words ask for."""

    kernel: str
    budget: int
    form: int
    bits: int
    system: str
    stimuli: str

    def words(self) -> list[str]:
        """The words of the C program."""
        return [str(KERNELS[self.kernel]), str(self.budget), str(self.form)]


def read_words(words: list[str]) -> Asked:
    """What words ask for. Raises `BadWords`."""
    options, files, rest = dict[str, str](), list[str](), list(words)
    while rest:
        word = rest.pop(0)
        if word == "--":
            files += rest
            break
        if not word.startswith("-"):
            files.append(word)
            continue
        name, equals, value = word.partition("=")
        if not equals and rest:
            value = rest.pop(0)
        if name in options or not _is_allowed(name, value):
            raise BadWords
        options[name] = value
    kernel = options.get("--kernel", "sim")
    form = int(options.get("--form", "1" if kernel == "sim" else "2"))
    if len(files) != 2 or kernel == "qv" and form == 1:
        raise BadWords
    return Asked(kernel, int(options.get("--budget", "100000")), form, int(options.get("--bits", "64")), *files)


def _is_allowed(name: str, value: str) -> bool:
    return _is_budget(value) if name == "--budget" else value in _ALLOWED.get(name, ())


def _is_budget(value: str) -> bool:
    return value.isascii() and value.isdigit() and value[0] != "0" and len(value) < 8 and int(value) <= MOST_BUDGET


def main(words: list[str]) -> int:
    """Runs what the words ask for; answers the status."""
    if words in (["-h"], ["--help"]):
        print(USAGE, end="")
        return DONE
    try:
        asked = read_words(words)
    except BadWords:
        print(USAGE, end="", file=sys.stderr)
        return BAD_WORDS
    if status := refused(asked.system, asked.stimuli):
        return status
    try:
        return _run(asked)
    except (Unread, Fault) as fault:
        return _tell(str(fault), BAD_FILE)
    except Differs as different:
        return _tell(f"{asked.system}: what was printed isn't the system: {different}", DIFFERENT)
    except (NotBuilt, OSError) as fault:
        return _tell(str(fault), NOT_RUN)


def _run(asked: Asked) -> int:
    system = read_file(asked.system, read_system)
    sources = read_file(asked.stimuli, lambda data: read_stimuli(data, system))
    with tempfile.TemporaryDirectory() as folder:
        files = print_all(Path(folder), system, Path(asked.system).name, sources)
        flags = [*STRICT, *DESK, f"-DQPB_BITS={asked.bits}", "-O1"]
        program = compile_all(compiler(), flags, [*files, HOST / "journal.c", HOST / "desk.c"], Path(folder, "desk"))
        sys.stdout.flush()
        ran = subprocess.run([program, *asked.words()], stdin=subprocess.DEVNULL)
    return ran.returncode if ran.returncode >= 0 else 128 - ran.returncode


def _tell(line: str, status: int) -> int:
    print(f"desk: {line}", file=sys.stderr)
    return status
