"""What the records say of steps, stimuli, ceilings, states and deferred lists, one record after another."""

from collections import Counter, defaultdict
from dataclasses import dataclass, field

from .journal import Record
from .naming import signed
from .rows import Rows
from .system_parts import System
from .words_told import WordsTold

#: Records that stand as a mark on the time line.
MARKS = {"assert", "full", "short", "nodefer", "spent", "spill", "pub", "defer", "recall", "flush"}


@dataclass
class Step:
    """A start (`label` -1) or a step, from its first record to its last.

    `depth` counts the steps that it interrupts. `state` and `handler` are the state whose row was taken and the row's
    number, 0 where nothing was. `exits`, `entries` and `inits` are states in order, `after` is the state that it
    leaves. `pauses` are the first and last records of the steps that interrupted it, `said` the values of its `say`
    actions. It is `cut` where its `done` doesn't stand.
    """

    row: int
    object: int
    first: int
    last: int
    depth: int
    label: int
    entry: tuple[int, ...] = ()
    state: int = 0
    handler: int = 0
    exits: list[int] = field(default_factory=list)
    entries: list[int] = field(default_factory=list)
    inits: list[int] = field(default_factory=list)
    after: int = 0
    pauses: list[list[int]] = field(default_factory=list)
    said: list[str] = field(default_factory=list)
    cut: bool = True


@dataclass
class Stimulus:
    """A stimulus of a source, from its first record to its last; `place` is that in its source, from 1."""

    row: int
    first: int
    last: int
    place: int


@dataclass
class Ceiling:
    """A raised ceiling, from its `lock` to its `unlock`."""

    row: int
    first: int
    last: int
    ceiling: int


class StepsTold:
    """Walks the records in order and keeps what they change; `words` keeps the events of entries."""

    def __init__(self, system: System, rows: Rows, words: WordsTold):
        self._rows = rows
        self._words = words
        self._parents = {
            entry.priority: {state.number: state.parent.number if state.parent else 0 for state in entry.chart.states}
            for entry in system.objects
        }
        self._stacks: dict[int, list[Step]] = defaultdict(list)
        self._closing: dict[int, Step] = {}
        self._stimuli: dict[int, Stimulus] = {}
        self._locked: dict[tuple[int, int], list[Ceiling]] = defaultdict(list)
        self.steps: list[Step] = []
        self.stimuli: list[Stimulus] = []
        self.ceilings: list[Ceiling] = []
        self.marks: list[list] = []
        self.states: dict[int, int] = defaultdict(int)
        self.takes: Counter[int] = Counter()
        self.deferred: Counter[int] = Counter()

    def tell(self, index: int, lane: int, record: Record) -> None:
        """Takes the next record, after `words` took it."""
        word, priority = record.word, record.numbers[0]
        row = self._rows.row_of(lane, priority)
        if word in MARKS:
            self.marks.append([index, word])
        self._extend(index, lane, record)
        match word:
            case "begin":
                self._open(Step(row, priority, index, index, 0, -1), lane)
            case "took":
                self.takes[priority] += 1
                entry = record.numbers[4:7]
                self._open(Step(row, priority, index, index, 0, self._words.label_of(*entry[:2]), entry), lane)
            case "run" | "exit" | "enter" | "init":
                self._note(index, lane, record)
            case "done":
                self._close(index, lane, priority)
            case "stim":
                self._stimuli[lane] = Stimulus(row, index, index, record.numbers[1])
                self.stimuli.append(self._stimuli[lane])
            case "lock":
                self._lock(index, lane, row, record)
            case "unlock":
                self._unlock(index, lane, priority)
            case "defer":
                entry = record.numbers[1:4]
                self.deferred[priority] += 1
                self._change("deferred", index, priority, self._words.label_of(*entry[:2]), *entry)
            case "recall" | "flush":
                self.deferred[priority] -= self.deferred[priority] > 0
                self._change("undeferred", index, priority, self._words.label_of(*record.numbers[1:3]))
            case "say":
                self._say(index, lane, priority, str(signed(record.numbers[1])))

    def _change(self, word: str, index: int, *numbers: int | str) -> None:
        self._words.changes.append([word, index, *numbers])

    def _extend(self, index: int, lane: int, record: Record) -> None:
        """A record belongs to the stimulus and to the steps under way in its lane, and the release behind a `done` to
        the step that is done."""
        if record.word != "stim" and lane in self._stimuli:
            self._stimuli[lane].last = index
        for step in self._stacks[lane]:
            step.last = index
        closing = self._closing.get(lane)
        if closing and record.word in ("dec", "back") and record.numbers[0] == closing.object:
            closing.last = index
            self._end_pause(lane, index)
        elif closing:
            del self._closing[lane]

    def _end_pause(self, lane: int, index: int) -> None:
        if self._stacks[lane] and (pauses := self._stacks[lane][-1].pauses):
            pauses[-1][1] = index

    def _open(self, step: Step, lane: int) -> None:
        stack = self._stacks[lane]
        if stack and stack[-1].object == step.object:
            stack.pop()
        if stack:
            stack[-1].pauses.append([step.first, step.first])
        step.depth = len(stack)
        stack.append(step)
        self.steps.append(step)

    def _step_of(self, lane: int, priority: int) -> Step | None:
        return next((step for step in reversed(self._stacks[lane]) if step.object == priority), None)

    def _close(self, index: int, lane: int, priority: int) -> None:
        step = self._step_of(lane, priority)
        if step is None:
            return
        stack = self._stacks[lane]
        del stack[stack.index(step):]
        step.cut, step.last, step.after = False, index, self.states[priority]
        self._closing[lane] = step
        self._end_pause(lane, index)

    def _note(self, index: int, lane: int, record: Record) -> None:
        priority, state = record.numbers[:2]
        step = self._step_of(lane, priority)
        if record.word == "run" and step:
            step.state, step.handler = record.numbers[1:3]
        elif record.word == "exit":
            self._enter(index, priority, self._parents.get(priority, {}).get(state, 0))
        elif record.word == "enter":
            self._enter(index, priority, state)
        if step and record.word != "run":
            {"exit": step.exits, "enter": step.entries, "init": step.inits}[record.word].append(state)
            step.after = self.states[priority]

    def _say(self, index: int, lane: int, priority: int, value: str) -> None:
        if step := self._step_of(lane, priority):
            step.said.append(value)
        self._change("said", index, priority, value)

    def _enter(self, index: int, priority: int, state: int) -> None:
        self.states[priority] = state
        self._change("state", index, priority, state)

    def _lock(self, index: int, lane: int, row: int, record: Record) -> None:
        priority, ceiling = record.numbers
        self._locked[lane, priority].append(Ceiling(row, index, index, ceiling))
        self.ceilings.append(self._locked[lane, priority][-1])
        self._change("ceiling", index, row, ceiling)

    def _unlock(self, index: int, lane: int, priority: int) -> None:
        if locked := self._locked[lane, priority]:
            ceiling = locked.pop()
            ceiling.last = index
            self._change("ceiling", index, ceiling.row, locked[-1].ceiling if locked else 0)

    def finish(self, last: int) -> None:
        """Steps that are cut end in the state they got to, interrupted to their last record where another one still runs
        above them; ceilings that nothing lowered stand until the last record."""
        for stack in self._stacks.values():
            for step in stack:
                step.after = self.states[step.object]
            for step in stack[:-1]:
                step.pauses[-1][1] = step.last
        for locked in self._locked.values():
            for ceiling in locked:
                ceiling.last = last
