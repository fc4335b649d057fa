"""A trace that just stops: cut back to what is whole, and ended by an assertion of its own.

A journal ends where its run does. One that is cut anywhere else is lawful only beside an assertion: then every lane may stop
before a step or a stimulus. So an object with a queue of one place is added, and a source that posts to it twice.
"""

from bisect import bisect_right
from collections import Counter, defaultdict

from qpviewer.faults import Fault
from qpviewer.journal import Record
from qpviewer.system import FIRST_SIGNAL, read_system
from qpviewer.system_parts import System
from qpviewer.touches import Touch, Word, touch_of

from .making import ASSERTED as ASSERTED_END
from .making import Made

NAME = "window_ends"
LAST_PRIORITY = 32
SOURCES = 16


def window(text: str, system: System, made: Made) -> tuple[str, Made]:
    """The text of the system with the added object, and what is judged by it. Raises `Fault` where there is no room for it."""
    priority = next((p for p in range(LAST_PRIORITY, 0, -1) if all(p != entry.priority for entry in system.objects)), 0)
    if not priority or len(made.sources) == SOURCES or NAME in system.signals or NAME in system.charts:
        raise Fault("", "a window needs a free priority, a free source, and its own name free")
    lanes = records_of(made)
    objects = len(system.objects)
    kept = whole(made, lanes, objects)
    notes = made.notes + [
        f"{_lane_name(system, lane)}: {len(records) - kept[lane]} of {len(records)} records are left out"
        for lane, records in enumerate(lanes) if kept[lane] < len(records)
    ]
    cut = [[record.text for record in records[:kept[lane]]] for lane, records in enumerate(lanes)]
    place = 1 + sum(entry.priority < priority for entry in system.objects)
    sources = [_seen_too(lane, system, priority) for lane in cut[objects + 1:]]
    signal = FIRST_SIGNAL + len(system.signals)
    ending = ["stim 0 1 0", f"post 0 {priority} 1 0 0 0 {signal} 0", "stim 0 2 0", f"assert 0 1 {priority} 1 0 0"]
    started = [f"begin {priority}", f"enter {priority} 1", f"done {priority}"]
    found = [*cut[:place], started, *cut[place:objects + 1], *sources, ending]
    line = f"post {NAME} {NAME}"
    notes.append(
        f"added: object {NAME} of priority {priority}, and source {len(made.sources) + 1}, whose second post to it is the assertion "
        "at which the journal ends"
    )
    return _with_object(text, priority), Made([*made.sources, [line, line]], found, ASSERTED_END, notes)


def records_of(made: Made) -> list[list[Record]]:
    """The records of each lane."""
    return [[_record(line) for line in lane] for lane in made.lanes]


def _record(line: str) -> Record:
    word, *numbers = line.split(" ")
    return Record(word, tuple(map(int, numbers)), line)


def _lane_name(system: System, lane: int) -> str:
    objects = len(system.objects)
    return f"lane {lane}, {system.objects[lane - 1].name}" if lane <= objects else f"lane {lane}, source {lane - objects}"


def _with_object(text: str, priority: int) -> str:
    added = (
        f'\n[[signal]]\nname = "{NAME}"\nstatic = true\n\n[[chart]]\nname = "{NAME}"\ninit = "waiting"\n\n'
        f'[[chart.state]]\nname = "waiting"\n\n[[object]]\nname = "{NAME}"\nchart = "{NAME}"\npriority = {priority}\nqueue = 0\n'
    )
    try:
        read_system((text + added).encode())
    except Fault as fault:
        raise Fault("", f"the system can't be added to: signals, charts and objects have to be tables of their own ({fault})") from None
    return text + added


def _seen_too(lane: list[str], system: System, priority: int) -> list[str]:
    """A settle sees the queue of the added object too, in its turn."""
    before = max((entry.priority for entry in system.objects if entry.priority < priority), default=0)
    found: list[str] = []
    for line in lane:
        found.append(line)
        if line == "settle 0" if not before else line.startswith(f"seen 0 {before} "):
            found.append(f"seen 0 {priority} 0 0 0")
    return found


# What is whole: lanes end before a step or a stimulus, and each word's numbers are drawn up to some number.

def whole(made: Made, lanes: list[list[Record]], objects: int) -> list[int]:
    """How many records of each lane are kept."""
    left = _references_left(lanes)
    ends = [_object_ends(lane, left) for lane in lanes[:objects + 1]]
    ends += [_source_ends(lane, is_whole) for lane, is_whole in zip(lanes[objects + 1:], made.is_last_whole)]
    return _Kept(lanes, ends).all()


def _touches(record: Record) -> list[Touch]:
    """What a record does to words; `new` and `back` show their block too."""
    found = [touch] if (touch := touch_of(record)) else []
    if record.word in ("new", "back"):
        _, pool, _, block, shown = record.numbers[:5]
        found.append(Touch(("block", pool, block), shown, False))
    return found


class _Kept:
    """How much of each lane is kept, so that no record touches a word beyond the first number that none draws.

    What is cut lowers such numbers, and what touches a word beyond one is cut in turn. Each record is looked at once for each word
    that it touches.
    """

    def __init__(self, lanes: list[list[Record]], ends: list[list[int]]):
        self._ends = ends
        self._kept = [len(lane) for lane in lanes]
        self._touches = [[_touches(record) for record in lane] for lane in lanes]
        #: How many kept records draw each number of a word; the first that none draws.
        self._drawn: dict[Word, Counter[int]] = defaultdict(Counter)
        self._limits: dict[Word, int] = {}
        #: What touches each word, as the limit that it needs, and its place; the highest limit last.
        self._needs: dict[Word, list[tuple[int, int, int]]] = defaultdict(list)
        self._lowered: list[Word] = []
        for lane, records in enumerate(self._touches):
            for at, touched in enumerate(records):
                for touch in touched:
                    self._needs[touch.word].append((touch.number + touch.draws, lane, at))
                    if touch.draws:
                        self._drawn[touch.word][touch.number] += 1

    def all(self) -> list[int]:
        for word, needs in self._needs.items():
            needs.sort()
            numbers = self._drawn[word]
            self._limits[word] = next(number for number in range(len(numbers) + 1) if not numbers[number])
        for lane, ends in enumerate(self._ends):
            self._cut(lane, ends[-1])
        self._lowered = list(self._needs)
        while self._lowered:
            self._keep_within(self._lowered.pop())
        return self._kept

    def _keep_within(self, word: Word) -> None:
        needs = self._needs[word]
        while needs and needs[-1][0] > self._limits[word]:
            _, lane, at = needs.pop()
            if at < self._kept[lane]:
                self._cut(lane, self._ends[lane][bisect_right(self._ends[lane], at) - 1])

    def _cut(self, lane: int, kept: int) -> None:
        for touched in self._touches[lane][kept:self._kept[lane]]:
            for word, number, draws in touched:
                if draws:
                    self._drawn[word][number] -= 1
                    if number < self._limits[word] and not self._drawn[word][number]:
                        self._limits[word] = number
                        self._lowered.append(word)
        self._kept[lane] = kept


def _references_left(lanes: list[list[Record]]) -> dict[tuple[int, int, int], int]:
    """How many references each drop leaves, by pool, block and number."""
    found: dict[tuple[int, int], list[tuple[int, int]]] = defaultdict(list)
    for lane in lanes:
        for record in lane:
            if record.word in ("inc", "dec"):
                _, pool, block, number, *_ = record.numbers
                found[pool, block].append((number, 1 if record.word == "inc" else -1))
    left: dict[tuple[int, int, int], int] = {}
    for (pool, block), operations in found.items():
        standing = 0
        for number, change in sorted(operations):
            standing += change
            left[pool, block, number] = standing
    return left


def _object_ends(lane: list[Record], left: dict[tuple[int, int, int], int]) -> list[int]:
    """After how many records a lane's start, steps and looks are whole."""
    ends = {0} | {at for at, record in enumerate(lane) if record.word in ("took", "nil")}
    if not lane:
        return [0]
    heads = [at for at, record in enumerate(lane) if record.word in ("begin", "took", "nil")]
    last = lane[heads[-1]:] if heads else []
    if last and _is_whole(last, left):
        ends.add(len(lane))
    return sorted(ends)


def _is_whole(step: list[Record], left: dict[tuple[int, int, int], int]) -> bool:
    words = [record.word for record in step]
    if words == ["nil"]:
        return True
    if "done" not in words:
        return False
    released = step[words.index("done") + 1:]
    if words[0] == "begin" or step[0].numbers[4] == 0:
        return not released
    if not released or released[0].word != "dec":
        return False
    _, pool, block, number, _ = released[0].numbers
    return len(released) == 1 + (left[pool, block, number] == 0)


def _source_ends(lane: list[Record], is_last_whole: bool) -> list[int]:
    """After how many records a lane's stimuli are whole."""
    ends = [at for at, record in enumerate(lane) if record.word == "stim"] or [0]
    return ends + [len(lane)] * is_last_whole
