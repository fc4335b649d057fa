"""The program's line on standard error, read."""

import re
from typing import NamedTuple


class Refusal(NamedTuple):
    """What a line says: its kind, the file that it names, and its numbers or place.

    The kinds are `fault` (code, place), `absent`, `too long`, `assertion` (code, lane), `spent` (lane), `broken` (the
    verdict), `bad words`, `memory`, `read fault` and `write fault`.
    """

    kind: str
    file: str = ""
    code: int = 0
    place: str = ""


_LINES = (
    (re.compile(r"qp: assertion ([0-9]+) in lane ([0-9]+)"), lambda m: Refusal("assertion", "", int(m[1]), m[2])),
    (re.compile(r"qp: spent in lane ([0-9]+)"), lambda m: Refusal("spent", "", 0, m[1])),
    (re.compile(r"qp: (broken D[0-9]+ .*)"), lambda m: Refusal("broken", "", 0, m[1])),
    (re.compile(r"qp: (bad words|memory|read fault|write fault)"), lambda m: Refusal(m[1])),
    (re.compile(r"qp: (.*): absent"), lambda m: Refusal("absent", m[1])),
    (re.compile(r"qp: (.*): too long ([0-9]+)"), lambda m: Refusal("too long", m[1], 0, m[2])),
    (re.compile(r"qp: (.*): ([0-9]+) (\S*)"), lambda m: Refusal("fault", m[1], int(m[2]), m[3])),
)


def read_refusal(note: str) -> Refusal | None:
    """The refusal of the last line of a note that is one."""
    for line in reversed(note.splitlines()):
        for pattern, make in _LINES:
            if found := pattern.fullmatch(line):
                return make(found)
    return None
