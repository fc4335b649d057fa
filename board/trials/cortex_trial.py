"""A Cortex-M3 in QEMU: exact journals, runs under interrupts whose traces are judged, and sizes.

Needs Debian's gcc-arm-none-eabi, libnewlib-arm-none-eabi and qemu-system-arm; QEMU runs a program the same way each time.
"""

import re
import shutil
import subprocess
from collections.abc import Iterator, Sequence
from pathlib import Path
from typing import NamedTuple

from qpboard.building import BOARD, HOST, RECORDED, NotBuilt, print_all
from qpboard.desk import KERNELS
from qpviewer.stimuli import read_stimuli
from qpviewer.system import read_system

from .desk_trial import Ran, difference, expected
from .places import EXAMPLES, Files, example_files
from .threads_trial import verdict

_HERE = BOARD / "cortex-m3"
_PATIENCE = 200


class Interrupts(NamedTuple):
    """A run under interrupts: a system, what the timer's interrupt hands in, the kernel, and the cycles between two of each."""

    system: str
    stimuli: str
    kernel: str
    ticks: int
    tick_cycles: int
    press_cycles: int


RUNS = (
    Interrupts("philosophers/table.toml", "source 1\npost cat EAT(1) margin 2 reserve 3\npublish EAT(9) reserve 4\n", "QPB_QK", 60, 40000, 23000),
    Interrupts("philosophers/table.toml", "source 1\npost cat EAT(1) margin 2 reserve 3\npublish EAT(9) reserve 4\n", "QPB_QV", 60, 40000, 23000),
    Interrupts("telemetry/system.toml", "", "QPB_QK", 60, 40000, 23000),
    Interrupts("clock/clock.toml", "source 1\npost clock BTN_MODE margin 1\npost clock BTN_ALARM margin 1\n", "QPB_QK", 40, 20000, 31000),
    Interrupts("button/system.toml", "source 1\npost button EDGE margin 0\n", "QPB_QK", 30, 20000, 33000),
    Interrupts("lamp.toml", "source 1\npost lamp GO margin 0\n", "QPB_QK", 20, 20000, 23000),
)
#: Systems whose sizes are told, with whether time events tick there.
SIZED = (("lamp.toml", False), ("button/system.toml", True), ("telemetry/system.toml", True), ("clock/clock.toml", True),
         ("philosophers/table.toml", True))
#: What is built of each: its name and flags.
SIZES = {"64 bits": [], "64 bits, recorded": ["-DQP_RECORD=1"], "32 bits": ["-DQPB_BITS=32"]}


def is_there() -> bool:
    """Whether the compiler, its library and QEMU are there."""
    if not shutil.which("arm-none-eabi-gcc") or not shutil.which("qemu-system-arm"):
        return False
    found = subprocess.run(["arm-none-eabi-gcc", "-print-file-name=rdimon.specs"], capture_output=True, text=True)
    return "/" in found.stdout


def exact(folder: Path, most: int) -> Iterator[str]:
    """For each of the first so many of the examples' runs, under each kernel, how its journal differs from that of `qp run`, or nothing."""
    for number, files in enumerate(example_files()[:most]):
        for kernel in KERNELS:
            own = folder / f"exact-{number}-{kernel}"
            own.mkdir()
            yield difference(f"{files.name} under {kernel}", expected(files, kernel, own), _exact_run(files, kernel, own))


def interrupted(folder: Path) -> Iterator[tuple[str, bool]]:
    """For each run under interrupts what it came to, and whether that is as it has to be."""
    for number, run in enumerate(RUNS):
        own = folder / f"interrupts-{number}"
        own.mkdir()
        path = EXAMPLES / run.system
        ran = _qemu(_interrupts(run, own, ["-DQP_RECORD=1", "-DBOARD_COUNTS"]), own / "trace")
        said = verdict(path, own / "trace")
        is_nested = "within 0" not in _words(ran)
        text = f"{run.system}, {run.kernel[4:]}: {_words(ran)}: {said}"
        yield text, ran.status == 0 and said == "lawful" and (not is_nested or run.kernel == "QPB_QK")


def sizes(folder: Path) -> Iterator[str]:
    """Rows of a table: bytes of flash and RAM, and of the stack that was in use under interrupts."""
    for system, ticks in SIZED:
        cells = []
        for number, flags in enumerate(SIZES.values()):
            own = folder / f"size-{number}-{system.replace('/', '-')}"
            own.mkdir()
            flash, ram = _size(EXAMPLES / system, own, [*flags, *(["-DSIZE_TICKS"] if ticks else [])])
            run = next(run for run in RUNS if run.system == system)
            stack = re.search(r"stack ([0-9]+)", _words(_qemu(_interrupts(run, own, flags), own / "trace")))
            cells.append(f"{flash} / {ram} / {stack[1] if stack else '?'}")
        yield f"| {system} | {' | '.join(cells)} |"


def _print(path: Path, stimuli: str, folder: Path) -> list[Path]:
    system = read_system(path.read_bytes())
    return print_all(folder, system, path.name, read_stimuli(stimuli.encode(), system))


def _exact_run(files: Files, kernel: str, folder: Path) -> Ran:
    system = read_system(files.system)
    printed = print_all(folder, system, files.name, read_stimuli(files.stimuli, system))
    words = [f'-DEXACT_{name}="{value}"' for name, value in
             (("KERNEL", KERNELS[kernel]), ("BUDGET", files.budget), ("FORM", 2 if kernel == "qv" else 1))]
    desk, exact_main = folder / "desk.o", _HERE / "exact.c"
    flags = [*words, '-DQPB_CONFIG="desk_config.h"']
    _build(desk, [HOST / "desk.c"], [*flags, "-Dmain=desk_main", "-c"], folder, with_start=False)
    program = _build(folder / "exact", [*printed, HOST / "journal.c", desk, exact_main], [*flags, "--specs=rdimon.specs"], folder)
    return _qemu(program, folder / "trace")


def _interrupts(run: Interrupts, folder: Path, flags: Sequence[str]) -> Path:
    printed = _print(EXAMPLES / run.system, run.stimuli, folder)
    numbers = [f"-DBOARD_TICKS={run.ticks}", f"-DBOARD_TICK_CYCLES={run.tick_cycles}", f"-DBOARD_PRESS_CYCLES={run.press_cycles}"]
    files = [*printed, _HERE / "interrupts.c", _HERE / "press_table.c"]
    return _build(folder / "interrupts", files, [*numbers, *flags, f"-DQPB_KERNEL={run.kernel}", "--specs=nano.specs"], folder)


def _size(path: Path, folder: Path, flags: Sequence[str]) -> tuple[int, int]:
    """Bytes of flash and of RAM."""
    files = _print(path, "", folder)[:1]
    program = _build(folder / "size", [*files, _HERE / "size.c"], [*flags, "--specs=nano.specs"], folder, with_start=False)
    told = subprocess.run(["arm-none-eabi-size", program], capture_output=True, text=True, check=True).stdout.splitlines()[1].split()
    return int(told[0]) + int(told[1]), int(told[1]) + int(told[2])


def _build(out: Path, files: Sequence[Path], flags: Sequence[str], folder: Path, with_start: bool = True) -> Path:
    if not any("QPB_CONFIG" in flag for flag in flags):
        flags = [*flags, '-DQPB_CONFIG="board.h"']
    flags = [*RECORDED, *([] if "-c" in flags else ["-nostartfiles", "-T", str(_HERE / "link.ld"), "-Wl,--gc-sections"]), *flags]
    words = ["arm-none-eabi-gcc", "-std=c99", "-Os", "-mcpu=cortex-m3", "-mthumb", "-ffunction-sections", "-fdata-sections",
             "-Wall", "-Wextra", "-Werror", f"-I{_HERE}", f"-I{BOARD}", f"-I{HOST}", f"-I{BOARD.parent / 'recorder'}", f"-I{folder}"]
    start = [_HERE / "start.c"] if with_start else []
    made = subprocess.run([*words, *start, *files, *flags, "-o", out], stdin=subprocess.DEVNULL, capture_output=True, text=True)
    if made.returncode:
        raise NotBuilt(made.stderr)
    return out


def _qemu(program: Path, trace: Path) -> Ran:
    ran = subprocess.run([_HERE / "run", program, trace], stdin=subprocess.DEVNULL, capture_output=True, timeout=_PATIENCE)
    return Ran(ran.stdout, ran.stderr, ran.returncode)


def _words(ran: Ran) -> str:
    """What a program said: QEMU writes it on either stream."""
    return ", ".join((ran.output + ran.line).decode(errors="replace").split("\n")).strip(", ")
