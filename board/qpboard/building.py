"""Printed tables, compiled with a host of `board/host`."""

import os
import shutil
import subprocess
from collections.abc import Sequence
from pathlib import Path

from qpviewer.system_parts import System

from .command import table_texts
from .stimuli_text import stimuli_text

BOARD = Path(__file__).resolve().parent.parent
HOST = BOARD / "host"
RECORDER = BOARD.parent / "recorder"
#: The name of the tables of a host.
NAME = "tables"
STRICT = ["-std=c99", "-pedantic", "-Wall", "-Wextra", "-Werror"]
#: A recorder whose pieces tell that a run has ended has to be told so.
RECORDED = ["-DQPB_CLOSE=qpr_close"] if "qpr_close(" in (RECORDER / "qp_record.h").read_text() else []
DESK = ["-DQPB_CONFIG=\"desk_config.h\""]


class NotBuilt(Exception):
    """A program that the compiler refused, with what it said; or there is no compiler."""


def compiler() -> str:
    """The compiler of the variable CC, or the first that is there. Raises `NotBuilt`."""
    found = os.environ.get("CC") or next((name for name in ("cc", "gcc", "clang") if shutil.which(name)), "")
    if not found or not shutil.which(found):
        raise NotBuilt(f"there is no C compiler{f' {found}' if found else ''}")
    return found


def print_all(folder: Path, system: System, source: str, sources: list[list[str]]) -> list[Path]:
    """Prints tables and stimuli into a folder; answers the files to compile. Raises `Fault`, or `Differs`."""
    texts = table_texts(system, NAME, source) | {"stimuli.c": stimuli_text(system, NAME, sources)}
    for name, text in texts.items():
        (folder / name).write_text(text)
    return [folder / f"{NAME}.c", folder / "stimuli.c"]


def compile_all(command: str, flags: Sequence[str], files: Sequence[Path], out: Path) -> Path:
    """Compiles files with what stands in a program's own folder, in `board` and in `board/host`. Raises `NotBuilt`."""
    folders = [f"-I{folder}" for folder in (out.parent, BOARD, HOST, RECORDER)]
    made = subprocess.run([command, *flags, *folders, *files, "-o", out], stdin=subprocess.DEVNULL, capture_output=True, text=True)
    if made.returncode:
        raise NotBuilt(f"{command}: {made.stderr or made.stdout}")
    return out
