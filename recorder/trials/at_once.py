"""Runs in which everything stops at once at an assertion, as on a board: others are in the middle of their steps."""

from collections import Counter
from pathlib import Path

from .judging import LAWFUL, judge, run
from .places import RUNS

KEPT, WINDOW, QUIET = "with their assertion", "as windows", "without an assertion"


def try_at_once(name: str, program: Path, folder: Path, count: int) -> tuple[Counter[str], int, list[str]]:
    """How so many runs are shown, in how many of them others are cut back, and what is wrong."""
    said: Counter[str] = Counter()
    cut = 0
    wrong: list[str] = []
    folder.mkdir(exist_ok=True)
    for _ in range(count):
        run(program, RUNS[name].stimuli, folder / "trace", at_once=True)
        judged = judge(RUNS[name], folder / "trace", folder)
        is_window = any(note.startswith("added: ") for note in judged.made.notes)
        said[WINDOW if is_window else KEPT if judged.made.end else QUIET] += 1
        cut += any("left out" in note for note in judged.made.notes)
        if judged.verdict != LAWFUL:
            wrong.append(f"{name}, stopped at once: {judged.verdict}")
    return said, cut, wrong
