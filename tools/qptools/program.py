"""The program as the tools call it, and what came of a call."""

import subprocess
from functools import cache
from pathlib import Path
from typing import NamedTuple

TOP = Path(__file__).resolve().parent.parent.parent
#: Where a gate or `./qp build` leaves the program.
PROGRAM = TOP / "crates" / "qp_cli" / "out" / "qp_cli"

#: What the launcher ends with where no program answered.
UNANSWERED = 125


class Answer(NamedTuple):
    """What a call printed, and its status."""

    output: bytes
    note: str
    status: int


@cache
def program(top: Path = TOP) -> Path | None:
    """The program that answers here, as `tools/program` chooses it; none where no proved one fits."""
    ran = subprocess.run([top / "tools" / "program"], stdin=subprocess.DEVNULL, stdout=subprocess.PIPE, text=True)
    return Path(ran.stdout.partition("\n")[0]) if ran.returncode == 0 else None


def is_built() -> bool:
    """Whether a proved program answers here."""
    return program() is not None


def call(words: list[str], seconds: float | None = None, stdin: int = subprocess.DEVNULL) -> Answer:
    """Calls the program. Raises `TimeoutExpired` after so many seconds, and `FileNotFoundError` where there is none."""
    found = program()
    if not found:
        raise FileNotFoundError("no proved program fits")
    ran = subprocess.run([found, *words], stdin=stdin, capture_output=True, timeout=seconds)
    return Answer(ran.stdout, ran.stderr.decode(errors="replace"), ran.returncode)
