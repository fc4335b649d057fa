"""What the benches read of a journal's text: how many records it has. What a journal is the program decides."""

import shutil
from pathlib import Path

#: Lines that are no records.
HEADS = (b"qp ", b"lane ", b"end ")


def records_in(journal: Path) -> int:
    """How many records a journal's text has: its lines, without the heads of its lanes, its first and its last line."""
    with open(journal, "rb") as lines:
        return sum(not line.startswith(HEADS) for line in lines)


def copy_of_qv(journal: Path, target: Path) -> None:
    """Writes the same text as that of a journal of `qv`, which form 1 doesn't have."""
    with open(journal, "rb") as lines, open(target, "wb") as copy:
        budget = lines.readline().split()[-1]
        copy.write(b"qp 2 3 " + budget + b"\n")
        shutil.copyfileobj(lines, copy)


def need_order(order: Path, records: int) -> str:
    """What isn't right of a printed order of so many records, or nothing: its first line, or its count of lines."""
    with open(order, "rb") as lines:
        head = lines.readline()
        count = sum(1 for _ in lines)
    return "" if head == f"order {records}\n".encode() and count == records else f"no order of each record, but {head!r} and {count} lines"


def lanes_in(journal: Path) -> int:
    """How many lanes a journal's text has."""
    with open(journal, "rb") as lines:
        return sum(line.startswith(b"lane ") for line in lines)
