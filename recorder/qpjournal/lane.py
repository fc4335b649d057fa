"""A lane's records as those of a journal: what objects and sources have in common."""

from collections import deque
from collections.abc import Callable

from qpviewer.faults import Fault

from .blocks import Block, Life
from .queues import Entry, take_out
from .records import KINDS, LAST_OBJECT, Raw, who_is
from .told import Told

#: The value of the highest of 64 bits.
SIGN = 2**63
#: Records on a block, before the first of which its `new` is written.
_ON_BLOCK = {"inc": 0, "dec": 0, "back": 0, "lifo": 0, "defer": 0, "post": 1}
#: Records that stand in a journal with the numbers that they have, where a lane has no writer for them.
_PLAIN = ("begin", "none", "enter", "exit", "init", "lock", "unlock", "nodefer", "norecall", "settle")


class Lane:
    """Takes a lane's records one after another, and keeps the lines of the journal.

    A `new` waits for the first record on its block, which tells its parameters and stands beside it in a journal. A release
    drops the reference that is due: that of a refused post, of a recall, a flush or a publication, and else the step's.
    """

    def __init__(self, told: Told, who: int):
        self.lines: list[str] = []
        self._told = told
        self._who = who
        self._object = who if who <= LAST_OBJECT else 0
        self._made: dict[Block, Entry] = {}
        self._due: list[Entry] = []
        self._waiting: dict[Block, Raw] = {}
        self._deferred: deque[Entry] = deque()
        self._step: Entry | None = None
        self._former: Raw | None = None
        own = [word for word, _, _ in KINDS.values() if hasattr(self, f"_{word}")]
        self._writers: dict[str, Callable[[int, Raw], None]] = dict.fromkeys(_PLAIN, self._plain)
        self._writers.update((word, getattr(self, f"_{word}")) for word in own)

    def put(self, word: str, *numbers: int) -> None:
        self.lines.append(f"{word} {' '.join(map(str, numbers))}")

    def write(self, at: int, raw: Raw) -> None:
        """Takes the lane's next record."""
        if raw.word in _ON_BLOCK:
            block = raw.block(_ON_BLOCK[raw.word])
            if block in self._waiting:
                self._write_new(self._waiting.pop(block))
        writer = self._writers.get(raw.word)
        if writer is None:
            raise Fault("", f"{who_is(self._who)}: record {at + 1} is `{raw.word}`, which none of its sort makes")
        writer(at, raw)
        self._former = raw

    def close(self) -> None:
        """What waits is written: the lane, a step or a stimulus is done."""
        for raw in self._waiting.values():
            self._write_new(raw)
        self._waiting = {}

    # Pools and references.

    def _event(self, at: int, raw: Raw) -> None:
        """Its parameters stand in `new`."""

    def _new(self, at: int, raw: Raw) -> None:
        block = raw.block()
        if block in self._waiting:
            self._write_new(self._waiting.pop(block))
        self._waiting[block] = raw

    def _write_new(self, raw: Raw) -> None:
        pool, _, signal = raw.values
        life = self._told.blocks.of_new(pool, raw.number)
        params = life.params or (0,) * self._told.params_of(signal)
        self.put("new", self._object, pool, raw.number, life.name, life.name_from, signal, *params)

    def _short(self, at: int, raw: Raw) -> None:
        pool, free, reserve = raw.values
        self.put("short", self._object, pool, raw.number, free, reserve)

    def _named(self, raw: Raw) -> tuple[Life | None, int, int]:
        """The life of an operation on a block, the block's name, and the operation's number."""
        pool, block = raw.values
        life = self._told.blocks.life((pool, block), raw.number)
        return (life, life.name, life.number(raw.number)) if life else (None, block, raw.number)

    def _inc(self, at: int, raw: Raw) -> None:
        life, name, number = self._named(raw)
        self._made[raw.block()] = Entry(*raw.block(), life, number)
        self.put("inc", self._object, raw.values[0], name, number)

    def _dec(self, at: int, raw: Raw) -> None:
        _, name, number = self._named(raw)
        self.put("dec", self._object, raw.values[0], name, number, self._dropped(raw.block()).reference)

    def _dropped(self, block: Block) -> Entry:
        for place in reversed(range(len(self._due))):
            if self._due[place][:2] == block:
                return self._due.pop(place)
        if self._step and self._step[:2] == block:
            return self._step
        return self._made.get(block, Entry(*block))

    def _back(self, at: int, raw: Raw) -> None:
        pool, block = raw.values
        life = self._told.blocks.of_back(pool, raw.number)
        name, to = (life.name, life.number(raw.shown)) if life else (block, raw.shown)
        self.put("back", self._object, pool, raw.number, name, to)

    def _own_is_due(self) -> None:
        """The reference made right before is to be dropped in this call."""
        if self._former and self._former.word == "inc":
            self._due.append(self._made[self._former.block()])

    # Queues.

    def _counts(self, queue: int, raw: Raw) -> tuple[int, int, int]:
        """The counts behind an operation, or those shown."""
        return self._told.queues.counts(queue, raw.number + (raw.word in ("post", "lifo", "took")))

    def _post(self, at: int, raw: Raw) -> None:
        entry = self._told.entries[self._who, at]
        self.put("post", self._object, raw.values[0], *self._counts(raw.values[0], raw), *entry.numbers())

    def _lifo(self, at: int, raw: Raw) -> None:
        entry = self._told.entries[self._who, at]
        self.put("lifo", self._object, *self._counts(self._object, raw), *entry.numbers())

    def _took(self, at: int, raw: Raw) -> None:
        self._step = self._told.queues.taken[self._who, at]
        self.put("took", self._object, *self._counts(self._object, raw), *self._step.numbers())

    def _seen(self, at: int, raw: Raw) -> None:
        self.put("seen", 0, raw.values[0], *self._counts(raw.values[0], raw))

    def _full(self, at: int, raw: Raw) -> None:
        self._own_is_due()
        self.put("full", self._object, raw.values[0], *self._counts(raw.values[0], raw), raw.values[1])

    # Deferral.

    def _defer(self, at: int, raw: Raw) -> None:
        entry = self._told.entries[self._who, at]
        self._deferred.append(entry)
        self.put("defer", self._object, *entry.numbers())

    def _recall(self, at: int, raw: Raw) -> None:
        entry = take_out(self._deferred, *raw.values)
        if entry.pool:
            self._due.append(entry)
        self.put(raw.word, self._object, *entry.numbers())

    _flush = _recall

    # Signals and time events.

    def _pub(self, at: int, raw: Raw) -> None:
        self._own_is_due()
        self.put("pub", self._object, raw.values[0], raw.number, raw.values[1])

    def _sub(self, at: int, raw: Raw) -> None:
        self.put(raw.word, self._object, raw.values[0], raw.number)

    _unsub = _same = _sub

    def _timer(self, at: int, raw: Raw) -> None:
        timer, *values = raw.values
        self.put(raw.word, self._object, timer, raw.number, *values)

    _arm = _disarm = _rearm = _idle = _tick = _fire = _timer

    # Notes.

    def _plain(self, at: int, raw: Raw) -> None:
        self.put(raw.word, self._object, *raw.values)

    def _say(self, at: int, raw: Raw) -> None:
        self.put("say", self._object, (raw.values[0] + SIGN) % (2 * SIGN) - SIGN)

    def _assert(self, at: int, raw: Raw) -> None:
        code, *values = raw.values
        match code:
            case 1 | 5:
                numbers: tuple[int, ...] = (values[0], *self._counts(values[0], raw))
            case 2 | 3:
                numbers = (values[0], raw.number, values[1])
            case _:
                numbers = tuple(values)
        self.put("assert", self._object, code, *numbers)
