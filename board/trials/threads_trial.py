"""Runs with a thread for each object and each source: each journal is judged."""

import subprocess
import tempfile
from collections import Counter
from collections.abc import Sequence
from concurrent.futures import ThreadPoolExecutor
from pathlib import Path
from typing import NamedTuple

from qpboard.building import HOST, RECORDED, STRICT, compile_all, print_all
from qpjournal.command import main as make_journal
from qptools.program import call
from qpviewer.stimuli import read_stimuli
from qpviewer.system import read_system

from .places import EXAMPLES, TOP

PATIENCE = 60
LAWFUL = "lawful"
#: The forms of the recorder: one buffer, and one for each thread.
FORMS = (1, 2)
FLAGS = [*STRICT, *RECORDED, "-D_POSIX_C_SOURCE=200809L", "-pthread", '-DQPB_CONFIG="threads_config.h"']
_RECORDED = TOP / "recorder" / "example"
#: Systems with stimuli of several sources that end by themselves, however threads meet, or at an assertion.
RUNS = (
    (EXAMPLES / "philosophers" / "table.toml", _RECORDED / "dinner.txt"),
    (_RECORDED / "workshop.toml", _RECORDED / "workshop.txt"),
    (_RECORDED / "workshop.toml", _RECORDED / "crowd.txt"),
    (_RECORDED / "workshop.toml", _RECORDED / "pressed.txt"),
    (EXAMPLES / "telemetry" / "system.toml", EXAMPLES / "telemetry" / "stimuli.txt"),
    (EXAMPLES / "busy" / "system.toml", EXAMPLES / "busy" / "stimuli.txt"),
    (EXAMPLES / "dry" / "dry.toml", EXAMPLES / "dry" / "stimuli.txt"),
    (EXAMPLES / "tour" / "publish.toml", EXAMPLES / "tour" / "publish.txt"),
    (EXAMPLES / "button" / "system.toml", EXAMPLES / "button" / "stimuli.txt"),
)


#: A counter, and a display whose chart does nothing; its board is host/echo.c, and source 2 is the display's.
_ECHO = """qp = 1
pool = [{ size = 1, blocks = 8 }]
signal = [{ name = "GO", static = true }, { name = "SHOW", params = 1 }, { name = "SHOWN", params = 1 }]
[[chart]]
name = "counter"
init = "s"
vars = { n = 0 }
[[chart.state]]
name = "s"
row = [{ on = "GO", do = ["n = n + 1", "post display SHOW(n) margin 0 reserve 2"] }, { on = "SHOWN", do = ["say p1"] }]
[[chart]]
name = "display"
init = "s"
state = [{ name = "s", row = [{ on = "SHOW" }] }]
[[object]]
name = "display"
chart = "display"
priority = 1
queue = 3
[[object]]
name = "counter"
chart = "counter"
priority = 2
queue = 5
"""
_ECHOED = b"source 1\n" + b"post counter GO margin 0\n" * 8 + b"source 2\n"


class Program(NamedTuple):
    """A system's file, and what it is compiled to."""

    file: Path
    program: Path


def build(compiler: str, run: tuple[Path, Path], form: int, folder: Path, flags: Sequence[str] = ("-O1",)) -> Program:
    """A system with its stimuli, recorded in a form. Raises `NotBuilt`."""
    file, stimuli = run
    folder.mkdir(parents=True)
    system = read_system(file.read_bytes())
    files = print_all(folder, system, file.name, read_stimuli(stimuli.read_bytes(), system))
    program = compile_all(compiler, [*FLAGS, *flags, f"-DQP_RECORD={form}"], [*files, HOST / "threads.c"], folder / "threads")
    return Program(file, program)


def wrong_of_hooks(compiler: str, form: int, folder: Path) -> str:
    """What is wrong with a run of an object of the board, whose hook says back what it shows; nothing where it is lawful and was heard."""
    folder.mkdir(parents=True)
    file = folder / "echo.toml"
    file.write_text(_ECHO)
    system = read_system(file.read_bytes())
    files = print_all(folder, system, file.name, read_stimuli(_ECHOED, system))
    words = [*FLAGS, "-O1", f"-DQP_RECORD={form}", "-DQPB_HOOKS"]
    program = compile_all(compiler, words, [*files, HOST / "threads.c", HOST / "echo.c"], folder / "threads")
    subprocess.run([program, folder / "trace", "jitter"], check=True, timeout=PATIENCE)
    said = verdict(file, folder / "trace")
    heard = (folder / "found" / "journal.txt").read_text().count("\nsay 2 ")
    return "" if said == LAWFUL and heard else f"{said}, and {heard} said back"


def judge_all(programs: Sequence[Program], count: int, processors: int) -> Counter[str]:
    """So many runs, in turn with each of the programs: how often each verdict was said."""
    with ThreadPoolExecutor(processors) as pool:
        return Counter(pool.map(lambda number: _judged(programs[number % len(programs)]), range(count)))


def _judged(program: Program) -> str:
    with tempfile.TemporaryDirectory() as name:
        folder = Path(name)
        words = [program.program, folder / "trace", "jitter"]
        try:
            ran = subprocess.run(words, stdin=subprocess.DEVNULL, capture_output=True, text=True, timeout=PATIENCE)
        except subprocess.TimeoutExpired:
            return f"{program.file.name}: no end after {PATIENCE} s"
        if ran.returncode or ran.stderr:
            return f"{program.file.name}: status {ran.returncode}: {ran.stderr}"
        return verdict(program.file, folder / "trace")


def verdict(file: Path, trace: Path) -> str:
    """What the judge says of a trace of a system; the journal is made beside it."""
    folder = trace.parent / "found"
    if status := make_journal([str(file), str(trace), str(folder)]):
        return f"{file.name}: no journal, status {status}"
    answer = call(["check", str(file), str(folder / "stimuli.txt"), str(folder / "journal.txt")])
    said = answer.output.decode().strip()
    return LAWFUL if said == LAWFUL else f"{file.name}: {said}{answer.note.strip()}"
