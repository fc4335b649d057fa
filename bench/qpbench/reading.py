"""What reading a journal takes: the same journal as one of `qv`, which form 1 doesn't have, is read whole, and refused in form 1."""

from collections.abc import Callable
from pathlib import Path

from .calls import Took, Wrong, call
from .journals import copy_of_qv


def reading(program: Path, folder: Path) -> Callable[[], Took]:
    """A call that reads the folder's `journal`. It raises `Wrong` where that isn't read to its end."""
    copy_of_qv(folder / "journal", folder / "qv")
    words: list[str | Path] = [program, "migrate", "--to", "1", "qv"]

    def read() -> Took:
        took = call(words, folder, folder / "out", 2)
        if took.note != "qp: qv: 8 -":
            raise Wrong(f"not read to its end: {took.note}")
        return took

    return read
