"""Where things are, what there is to build with, and the runs of the examples."""

import shutil
from pathlib import Path
from typing import NamedTuple

from qptools.cases.case_file import read_cases
from qptools.program import PROGRAM, TOP

__all__ = ["BOARD", "EXAMPLES", "PROGRAM", "TOP", "Files", "compilers", "example_files", "example_systems"]

BOARD = TOP / "board"
EXAMPLES = TOP / "examples"


class Files(NamedTuple):
    """A system and stimuli, as a name for what is told and as texts, and a budget."""

    name: str
    system: bytes
    stimuli: bytes
    budget: int = 100_000


def compilers() -> list[str]:
    return [name for name in ("gcc", "clang") if shutil.which(name)]


def example_systems() -> list[Path]:
    """The systems of the examples."""
    return sorted(path for path in EXAMPLES.rglob("*.toml") if path.name != "cases.toml")


def example_files() -> list[Files]:
    """The runs of the examples: their cases, each system without stimuli, and each run once more where it stops after three events."""
    found: dict[tuple[bytes, bytes], str] = {}
    for path in sorted(EXAMPLES.rglob("cases.toml")):
        for case in read_cases(path):
            stimuli = case.stimuli.encode() if isinstance(case.stimuli, str) else case.stimuli.read_bytes()
            found.setdefault((case.system.read_bytes(), stimuli), f"{path.parent.name}: {case.name}")
    for path in example_systems():
        found.setdefault((path.read_bytes(), b""), f"{path.relative_to(EXAMPLES)} without stimuli")
    runs = [Files(name, system, stimuli) for (system, stimuli), name in found.items()]
    return [*runs, *(run._replace(name=f"{run.name}, budget 3", budget=3) for run in runs if run.stimuli)]
