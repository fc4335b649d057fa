"""Reads a journal's text, of either form (docs/FORMATS.md, sections 4 and 6)."""

import re
from dataclasses import dataclass
from typing import NamedTuple

from .faults import Fault

#: Each word of a record and its count of numbers; `new` and `assert` have several.
COUNTS = {
    "begin": 1, "took": 7, "nil": 4, "seen": 5, "run": 3, "none": 1, "exit": 2, "enter": 2, "init": 2, "say": 2,
    "done": 1, "new": None, "short": 5, "inc": 4, "dec": 5, "back": 5, "post": 8, "lifo": 7, "full": 6, "pub": 4,
    "lock": 2, "unlock": 2, "defer": 4, "nodefer": 1, "recall": 4, "norecall": 1, "flush": 4, "sub": 3, "unsub": 3,
    "same": 3, "arm": 5, "disarm": 4, "rearm": 5, "idle": 3, "tick": 4, "fire": 4, "stim": 3, "settle": 1,
    "assert": None, "spent": 1, "spill": 2, "look": 3, "rest": 2,
}
HEADS = {"qp": 3, "lane": 1, "end": 1}
#: How many numbers stand behind each code of `assert`.
ASSERTED = {1: 4, 2: 3, 3: 3, 4: 3, 5: 4}

LARGEST = 2**64 - 1
LANES = 49
OBJECTS = 32
RECORDS = 1_000_001

SIM, QK, PORT, QV = range(4)
KERNELS = ("sim", "qk", "port", "qv")

#: What each code of a faulty line means.
MEANINGS = {
    1: "no item of a journal begins like this, or the line has no newline",
    2: "a number isn't canonical decimal of at most 64 bits, or spaces aren't single",
    3: "the item has another count of numbers",
    4: "the item isn't allowed here",
    5: "the text ends without an `end` line",
    6: "a number is out of range",
}

_NUMBER = re.compile(r"0|[1-9][0-9]{0,19}", re.ASCII)
_SIGNED = re.compile(r"0|-?[1-9][0-9]{0,18}", re.ASCII)


class Record(NamedTuple):
    """A record: its word, its numbers, and its line as it stands in the journal."""

    word: str
    numbers: tuple[int, ...]
    text: str


@dataclass
class Journal:
    """A journal: its form, kernel (0 to 3) and budget, its lanes, and the end that it states (0, 3 or 4)."""

    form: int
    kernel: int
    budget: int
    lanes: list[list[Record]]
    status: int


class _Refused(Exception):
    """A line with a code."""

    def __init__(self, code: int):
        super().__init__(code)
        self.code = code


def read_journal(data: bytes) -> Journal:
    """The journal of a text. Raises `Fault` with the first faulty line and its lowest code."""
    lines = data.decode("latin-1").split("\n")
    rest = lines.pop()
    reader = _Reader(2 if lines and lines[0].split(" ")[:2] == ["qp", "2"] else 1)
    for place, line in enumerate(lines, 1):
        try:
            reader.read(line)
        except _Refused as refused:
            raise _fault(place, refused.code) from None
    if rest:
        raise _fault(len(lines) + 1, 1)
    if reader.status is None or reader.kernel is None:
        raise _fault(len(lines) + 1, 5)
    return Journal(reader.form, reader.kernel, reader.budget, reader.lanes, reader.status)


def _fault(line: int, code: int) -> Fault:
    return Fault(f"line {line}", f"{MEANINGS[code]} (code {code})")


class _Reader:
    """What was read so far."""

    def __init__(self, form: int):
        self.form = form
        self.kernel: int | None = None
        self.budget = 0
        self.lanes: list[list[Record]] = []
        self.status: int | None = None

    def read(self, line: str) -> None:
        word, *tokens = line.split(" ")
        if word not in COUNTS and word not in HEADS or (word == "rest" and self.form == 1):
            raise _Refused(1)
        numbers = self._numbers(word, tokens)
        if not _count_is_right(word, numbers):
            raise _Refused(3)
        if not self._is_allowed(word, numbers):
            raise _Refused(4)
        if word in HEADS:
            self._read_head(word, numbers)
        elif numbers[0] > OBJECTS or len(self.lanes[-1]) == RECORDS:
            raise _Refused(6)
        else:
            self.lanes[-1].append(Record(word, numbers, line))

    def _numbers(self, word: str, tokens: list[str]) -> tuple[int, ...]:
        for place, token in enumerate(tokens):
            if word == "say" and self.form == 2 and place == 1:
                if not _SIGNED.fullmatch(token) or not -(2**63) <= int(token) < 2**63:
                    raise _Refused(2)
            elif not _NUMBER.fullmatch(token) or len(token) == 20 and int(token) > LARGEST:
                raise _Refused(2)
        return tuple(map(int, tokens))

    def _is_allowed(self, word: str, numbers: tuple[int, ...]) -> bool:
        begun = self.kernel is not None
        if word == "qp":
            return not begun
        if not begun or self.status is not None:
            return False
        if word == "lane":
            return numbers[0] == len(self.lanes)
        return word == "end" or bool(self.lanes)

    def _read_head(self, word: str, numbers: tuple[int, ...]) -> None:
        if word == "qp":
            form, kernel, budget = numbers
            if form not in (1, 2) or kernel > (PORT if form == 1 else QV) or not 1 <= budget <= 1_000_000:
                raise _Refused(6)
            self.kernel, self.budget = kernel, budget
        elif word == "lane":
            if numbers[0] >= LANES:
                raise _Refused(6)
            self.lanes.append([])
        else:
            if numbers[0] not in (0, 3, 4):
                raise _Refused(6)
            self.status = numbers[0]


def _count_is_right(word: str, numbers: tuple[int, ...]) -> bool:
    if word == "new":
        return 6 <= len(numbers) <= 14
    if word == "assert":
        return len(numbers) >= 2 and ASSERTED.get(numbers[1]) == len(numbers) - 2
    return len(numbers) == (COUNTS[word] if word in COUNTS else HEADS[word])
