"""A run as text: a line for each start, step and stimulus, or a line for each record.

Lines have names and no numbers of records, so that two runs can be compared by `diff`: a step that differs changes its
own line. What is refused and what stops a run stands in capitals.
"""

from collections.abc import Callable
from dataclasses import dataclass, field, replace

from .journal import KERNELS, Record
from .naming import signed
from .story import Story

#: Records that begin a line of their own.
_BEGINS = {"begin", "took", "stim"}
#: Records that the lines of steps leave out: the kernel's looks, and what only touches words.
_SILENT = {"look", "seen", "nil", "settle", "done", "new", "inc", "dec", "back", "idle", "tick"}
_ENDS = {0: "ended quietly", 3: "ENDED BY AN ASSERTION", 4: "ENDED BY THE BUDGET OR A FULL LANE"}
INDENT = "  "


@dataclass
class _Line:
    """A line under way: how many steps it interrupts, its head, what happened in it, and the pools that it touched. A step
    that isn't done at the end is cut off. It is moved where another line stands for it further down."""

    depth: int
    head: str
    parts: list[str] = field(default_factory=list)
    free: dict[int, int] = field(default_factory=dict)
    is_step: bool = False
    is_done: bool = False
    is_moved: bool = False

    def text(self) -> str:
        pools = [f"pool {pool} has {free} free" for pool, free in self.free.items()]
        told = "; ".join([*self.parts, *pools, *(["CUT OFF"] if self.is_step and not self.is_done else [])])
        return f"{INDENT * self.depth}{self.head}{': ' + told if told else ''}"


def records_text(story: Story) -> str:
    """A line for each record in order: its lane, its line of the journal, who made it and what it says. So the number of a
    line is that of its record."""
    lines = []
    for index, (lane, record) in enumerate(story.records()):
        who, words = story.in_words(index)
        lines.append(f"{lane} {record.text:<28} {who} {words}\n")
    return "".join(lines)


def run_text(story: Story) -> str:
    """A line for each start, step and stimulus, between the run's head and its end. They are in order of their first records, but a
    `settle` stands where it saw the queues empty, which with threads is later."""
    return _RunText(story).text()


class _RunText:
    """Walks the records and keeps the lines, and which of them an object's or a source's next record belongs to."""

    def __init__(self, story: Story):
        self._story = story
        self._names = story.names
        self._lines: list[_Line] = []
        self._open: dict[tuple[int, int], _Line] = {}
        self._depths = {step.first: step.depth for step in story.steps.steps}
        self._free = {index: (pool, free) for pool, changes in story.words.free.items() for index, free in changes}

    def text(self) -> str:
        for index, (lane, record) in enumerate(self._story.records()):
            self._tell(index, lane, record)
        return "".join(f"{line}\n" for line in [self._head(), *(line.text() for line in self._lines if not line.is_moved), *self._end()])

    def _head(self) -> str:
        journal = self._story.journal
        return f"kernel {KERNELS[journal.kernel]}, budget {journal.budget}"

    def _end(self) -> list[str]:
        story = self._story
        last = [f"{line[0]} took {line[4]}, {line[8]}" for line in story.object_lines()]
        pools = [f"pool {line[0]} gave {line[4]}, {line[5]} back" for line in story.pool_lines()]
        return [f"end {story.journal.status}: {_ENDS[story.journal.status]}", *last, *pools]

    def _tell(self, index: int, lane: int, record: Record) -> None:
        key = (lane, record.numbers[0])
        if record.word in _BEGINS:
            self._open[key] = self._begun(index, record)
            self._lines.append(self._open[key])
            return
        line = self._open.get(key)
        if record.word not in _SILENT:
            if line is None or line.is_done and record.word != "flush":
                line = _Line(0, self._story.in_words(index)[0])
                self._lines.append(line)
            line.parts.append(self._words(index, record))
        if line is None:
            return
        if record.word == "seen" and line is not self._lines[-1]:
            line = self._open[key] = self._moved(line)
        if index in self._free:
            pool, free = self._free[index]
            line.free[pool] = free
        line.is_done = line.is_done or record.word == "done"

    def _moved(self, line: _Line) -> _Line:
        """The same line behind all others so far."""
        self._lines.append(replace(line))
        line.is_moved = True
        return self._lines[-1]

    def _begun(self, index: int, record: Record) -> _Line:
        who, words = self._story.in_words(index)
        if record.word == "stim":
            return _Line(0, f"{who} {words.partition(': ')[2]}")
        return _Line(self._depths.get(index, 0), f"{who} {words}", is_step=True)

    def _words(self, index: int, record: Record) -> str:
        """What a record says within its line."""
        numbers = record.numbers
        if record.word in _SHORT:
            return _SHORT[record.word](self._names, numbers)
        words = self._story.in_words(index)[1]
        return _LOUD[record.word](words) if record.word in _LOUD else words


_SHORT: dict[str, Callable] = {
    "run": lambda names, n: f"{names.state(n[0], n[1])} row {n[2]}",
    "none": lambda names, n: "no state handles it",
    "exit": lambda names, n: f"-{names.state(n[0], n[1])}",
    "enter": lambda names, n: f"+{names.state(n[0], n[1])}",
    "init": lambda names, n: f"initial of {names.state(n[0], n[1])}",
    "say": lambda names, n: f"says {signed(n[1])}",
    "fire": lambda names, n: f"{names.timer(n[1])} fires",
    "lock": lambda names, n: f"ceiling {n[1]}",
    "unlock": lambda names, n: f"ceiling {n[1]}",
}
_LOUD: dict[str, Callable[[str], str]] = {
    "full": lambda words: words.replace("is refused", "IS REFUSED"),
    "short": lambda words: words.replace("is refused", "IS REFUSED"),
    "nodefer": lambda words: words.replace("can't defer", "CAN'T DEFER"),
    "assert": lambda words: words.replace("asserts", "ASSERTS"),
    "spent": lambda words: words.replace("has spent its budget", "HAS SPENT ITS BUDGET"),
    "spill": lambda words: words.replace("stops", "STOPS"),
}
