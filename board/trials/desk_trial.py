"""The C program's journal, line and status beside those of `qp run`, under both kernels of one thread."""

import os
import subprocess
import tempfile
from collections import Counter
from collections.abc import Iterable, Sequence
from concurrent.futures import ThreadPoolExecutor
from copy import copy
from pathlib import Path
from typing import NamedTuple

from qpboard.building import DESK, HOST, STRICT, NotBuilt, compile_all, print_all
from qpboard.desk import KERNELS
from qpviewer.stimuli import read_stimuli
from qpviewer.system import read_system

from .generating import Made
from .places import PROGRAM, Files

#: Seconds after which a run is given up.
PATIENCE = 120
_HOST_FILES = ("journal", "desk")


class Ran(NamedTuple):
    """What a run printed, its line and its status."""

    output: bytes
    line: bytes
    status: int


class Told(NamedTuple):
    """How many runs were the same, what they came to, how many lines they had, and what differs."""

    same: int
    ends: Counter[str]
    lines: int
    wrong: list[str]


class Desk:
    """A host of one thread, compiled once, with which the tables of many systems are linked."""

    def __init__(self, folder: Path, compiler: str, flags: Sequence[str] = ("-O0",), name: str = "plain"):
        self._compiler, self._flags = compiler, [*STRICT, *DESK, *flags]
        own = folder / f"{compiler}-{name}"
        own.mkdir()
        self._objects = [compile_all(compiler, [*self._flags, "-c"], [HOST / f"{name}.c"], own / f"{name}.o") for name in _HOST_FILES]

    def with_interpreter(self, folder: Path) -> "Desk":
        """The same host with another interpreter, which stands in a folder."""
        other = copy(self)
        other._flags = [f"-I{folder}", *self._flags]
        return other

    def build(self, files: Files, folder: Path) -> Path:
        """The program of a system with its stimuli."""
        system = read_system(files.system)
        printed = print_all(folder, system, files.name, read_stimuli(files.stimuli, system))
        both = folder / "both.c"
        both.write_text("".join(f'#include "{file.name}"\n' for file in printed))
        return compile_all(self._compiler, self._flags, [both, *self._objects], folder / "desk")


def made_files(made: Made) -> Files:
    return Files(f"system {made.number}", made.system.encode(), made.stimuli.encode(), made.budget)


def expected(files: Files, kernel: str, folder: Path) -> Ran:
    """What the program says."""
    names = folder / "system.toml", folder / "stimuli.txt"
    for name, content in zip(names, (files.system, files.stimuli)):
        name.write_bytes(content)
    return _run([PROGRAM, "run", "--kernel", kernel, "--budget", str(files.budget), *names])


def found(program: Path, files: Files, kernel: str) -> Ran:
    """What the C program says."""
    form = "2" if kernel == "qv" else "1"
    return _run([program, str(KERNELS[kernel]), str(files.budget), form])


def compare_all(desks: Sequence[Desk], runs: Iterable[Files], processors: int = os.cpu_count() or 1) -> Told:
    """Each run under both kernels, in turn with each of the desks."""
    ends: Counter[str] = Counter()
    wrong: list[str] = []
    same = lines = 0
    with ThreadPoolExecutor(processors) as pool:
        for told in pool.map(lambda numbered: _compare(desks[numbered[0] % len(desks)], numbered[1]), enumerate(runs)):
            for end, count, is_wrong in told:
                if is_wrong:
                    wrong.append(is_wrong)
                else:
                    same, lines = same + 1, lines + count
                    ends[end] += 1
    return Told(same, ends, lines, wrong)


def _compare(desk: Desk, files: Files) -> list[tuple[str, int, str]]:
    with tempfile.TemporaryDirectory() as name:
        folder = Path(name)
        try:
            program = desk.build(files, folder)
        except NotBuilt as fault:
            return [("", 0, f"{files.name}: {fault}")]
        told = []
        for kernel in KERNELS:
            want = expected(files, kernel, folder)
            got = found(program, files, kernel)
            told.append((_end(want), want.output.count(b"\n"), difference(f"{files.name} under {kernel}", want, got)))
        return told


def difference(name: str, want: Ran, got: Ran) -> str:
    """Where two runs differ first; nothing where they don't, and the program took the files."""
    if want.status not in (0, 3, 4):
        return f"{name}: the program says {want.line.decode().strip()}"
    if got == want:
        return ""
    if got.output != want.output:
        wanted, had = want.output.splitlines(), got.output.splitlines()
        place = next((n for n, (one, other) in enumerate(zip(wanted, had)) if one != other), min(len(wanted), len(had)))
        lines = [(of[place].decode(errors="replace") if place < len(of) else "no line") for of in (had, wanted)]
        return f"{name}: line {place + 1} is `{lines[0]}` and not `{lines[1]}`"
    return f"{name}: status {got.status}, `{got.line.decode(errors='replace').strip()}`, and not {want.status}, `{want.line.decode().strip()}`"


def _end(ran: Ran) -> str:
    return ran.line.decode().strip().removeprefix("qp: ").split(" in ")[0] or "quiet"


def _run(words: Sequence[str | Path]) -> Ran:
    try:
        ran = subprocess.run(words, stdin=subprocess.DEVNULL, capture_output=True, timeout=PATIENCE)
    except subprocess.TimeoutExpired:
        return Ran(b"", b"no end", -1)
    return Ran(ran.stdout, ran.stderr, ran.returncode)
