"""Reads the records of a start, of steps and of stimuli as groups, one for each call (docs/FORMATS.md, section 5).

It is a second reading of those shapes, for who looks for the place of a verdict. Whether a journal is lawful says `qp check` alone.
"""

from collections import defaultdict
from dataclasses import dataclass, field

from .journal import Journal, Record
from .word_places import Spot

Entry = tuple[int, ...]
#: Notes that stand alone, and operations that are a call by themselves.
_ALONE = {"exit", "enter", "init", "say", "nodefer", "norecall", "sub", "unsub", "same", "arm", "disarm", "rearm", "idle", "short"}


class Unfit(Exception):
    """A record that fits no shape, and why; the one behind the last where records end too early."""

    def __init__(self, at: int, why: str):
        super().__init__(why)
        self.at, self.why = at, why


@dataclass
class Group:
    """The records of one call or note: its word, its record that says most with its place, the place of its first record, the
    event of `new` where one was made, and the answer; `asserted` where an assertion ends it."""

    word: str
    record: Record
    last: int
    at: int = 0
    event: tuple[int, ...] = ()
    is_forward: bool = False
    answer: int = 1
    asserted: bool = False


@dataclass
class References:
    """How many references to its block each drop leaves, and which drops are of the only reference that stands."""

    left: dict[tuple[int, int, int], int] = field(default_factory=dict)
    last: set[tuple[int, int, int]] = field(default_factory=set)

    @staticmethod
    def of(journal: Journal) -> "References":
        operations: dict[tuple[int, int], list[tuple[int, int | None]]] = defaultdict(list)
        for lane in journal.lanes:
            for record in lane:
                if record.word in ("inc", "dec"):
                    _, pool, block, number, *dropped = record.numbers
                    operations[pool, block].append((number, dropped[0] if dropped else None))
        found = References()
        for whole, changes in operations.items():
            found._walk(whole, sorted(changes, key=lambda change: change[0]))
        return found

    def _walk(self, block: tuple[int, int], changes: list[tuple[int, int | None]]) -> None:
        """Takes the operations of a block in order: what makes a reference has its number, what drops one names it."""
        count, standing = 0, set()
        for number, dropped in changes:
            count += 1 if dropped is None else -1
            self.left[*block, number] = count
            if dropped is None:
                standing.add(number)
            elif dropped in standing:
                standing.remove(dropped)
                if not standing:
                    self.last.add((*block, number))

    def is_last_drop(self, record: Record) -> bool:
        """Whether a record drops the last reference to its block, which stood."""
        return record.word == "dec" and record.numbers[1:4] in self.last


class Shapes:
    """Reads spots from the front. The owner is an object's priority, or 0 for a source."""

    def __init__(self, spots: list[Spot], references: References, owner: int):
        self._spots = spots
        self._references = references
        self._owner = owner
        self._ceilings: list[int] = [0]
        self.at = 0

    @property
    def is_done(self) -> bool:
        return self.at == len(self._spots)

    @property
    def ceiling(self) -> int:
        """The ceiling that is raised now, 0 for none."""
        return self._ceilings[-1]

    def next_word(self) -> str:
        return "" if self.is_done else self._spots[self.at].record.word

    def take(self, *words: str) -> Record:
        """The next record, which has to be one of these."""
        if self.is_done:
            raise Unfit(self.at, f"the records end, where {_either(words)} has to follow")
        record = self._spots[self.at].record
        if record.word not in words:
            raise Unfit(self.at, f"`{record.word}` stands where {_either(words)} has to follow")
        self.at += 1
        return record

    def refuse(self, why: str) -> Unfit:
        """What is wrong with the record taken last."""
        return Unfit(self.at - 1, why)

    def group(self, now: Entry | None) -> Group:
        """The next call or note of a step on the entry `now`, or of a start."""
        start = self.at
        word = self.next_word()
        if word == "new":
            group = self._with_new(now)
        elif word == "inc":
            group = self._with_reference(now)
        elif word in ("post", "full", "lifo", "pub", "defer"):
            group = self._static(now)
        elif word == "recall":
            group = self._recall()
        elif word == "flush":
            record = self.take("flush")
            self.release(record.numbers[1:])
            group = Group("flush", record, start)
        elif word == "lock":
            record = self.take("lock")
            self._ceilings.append(record.numbers[1])
            group = Group("lock", record, start)
        elif word == "unlock":
            group = Group("unlock", self._unlock(), start)
        elif word == "assert":
            group = Group("assert", self.take("assert"), start, asserted=True)
        elif word in _ALONE:
            record = self.take(word)
            refused = word in ("nodefer", "norecall", "same", "idle", "short") or word == "rearm" and record.numbers[3] == 0
            group = Group(word, record, start, answer=int(not refused))
        else:
            raise Unfit(self.at, f"no call begins with `{word}`" if word else "the records end within a start, a step or a stimulus")
        group.at = start
        return group

    def release(self, entry: Entry) -> None:
        """The release of an entry: nothing where it is static."""
        pool, block, reference = entry
        if pool == 0:
            return
        record = self.take("dec")
        if record.numbers[1:3] != (pool, block) or record.numbers[4] != reference:
            raise self.refuse(f"reference {reference} of block {block} of pool {pool} has to be dropped")
        number = record.numbers[3]
        if self._references.left.get((pool, block, number)) == 0:
            back = self.take("back").numbers
            if (back[1], back[3], back[4]) != (pool, block, number + 1):
                raise self.refuse(f"block {block} of pool {pool} has to come back behind operation {number}")

    def _unlock(self) -> Record:
        record = self.take("unlock")
        if len(self._ceilings) == 1:
            raise self.refuse("no ceiling is raised")
        self._ceilings.pop()
        if record.numbers[1] != self._ceilings[-1]:
            raise self.refuse(f"the former ceiling is {self._ceilings[-1]}")
        return record

    def _made(self, pool: int, block: int) -> Entry:
        record = self.take("inc")
        if record.numbers[1:3] != (pool, block):
            raise self.refuse(f"a reference to block {block} of pool {pool} has to be made")
        return pool, block, record.numbers[3]

    def _with_new(self, now: Entry | None) -> Group:
        record = self.take("new")
        entry = self._made(record.numbers[1], record.numbers[3])
        group = self._laid(entry, ("post", "full", "lifo", "pub", "assert"))
        group.event = record.numbers[5:]
        return group

    def _with_reference(self, now: Entry | None) -> Group:
        if now is None or now[0] == 0:
            self.take("inc")
            raise self.refuse("no block is given out before, and no event of a pool is worked on")
        group = self._laid(self._made(*now[:2]), ("post", "full", "defer", "assert"))
        group.is_forward = True
        return group

    def _static(self, now: Entry | None) -> Group:
        record = self._spots[self.at].record
        if record.word in ("full", "pub"):
            entry: Entry = (0, record.numbers[1], 0)
        else:
            entry = record.numbers[-3:]
        group = self._laid(entry, (record.word,))
        if entry[0]:
            raise self.refuse("the reference isn't made in this call")
        if record.word == "defer" and entry != now:
            raise self.refuse("another event is worked on")
        return group

    def _laid(self, entry: Entry, words: tuple[str, ...]) -> Group:
        """What a call does with its entry."""
        record = self.take(*words)
        at = self.at - 1
        if record.word in ("post", "lifo", "defer") and record.numbers[-3:] != entry:
            raise self.refuse(f"the entry is {' '.join(map(str, entry))}")
        if record.word == "assert":
            return Group("assert", record, at, asserted=True)
        if record.word == "pub":
            return self._publication(record, entry)
        if record.word == "full":
            self.release(entry)
            return Group("full", record, at, answer=0)
        return Group(record.word, record, at)

    def _publication(self, record: Record, entry: Entry) -> Group:
        group = Group("pub", record, self.at - 1)
        members = [priority for priority in range(32, 0, -1) if record.numbers[3] >> priority - 1 & 1]
        if members and self._owner:
            ceiling = self.take("lock").numbers[1]
            if ceiling != max(self._ceilings[-1], members[0]):
                raise self.refuse(f"the ceiling is to be {max(self._ceilings[-1], members[0])}")
            self._ceilings.append(ceiling)
        for member in members:
            again = self._made(*entry[:2]) if entry[0] else entry
            post = self.take("post", "assert")
            target = post.numbers[2 if post.word == "assert" else 1]
            if target != member:
                raise self.refuse(f"the next subscriber is object {member}")
            if post.word == "assert":
                group.asserted = True
                return group
            if post.numbers[-3:] != again:
                raise self.refuse(f"the entry is {' '.join(map(str, again))}")
        if members and self._owner:
            self._unlock()
        self.release(entry)
        return group

    def _recall(self) -> Group:
        record = self.take("recall")
        at = self.at - 1
        entry = record.numbers[1:]
        again = self._made(*entry[:2]) if entry[0] else entry
        if self._laid(again, ("lifo", "assert")).asserted:
            return Group("recall", record, at, asserted=True)
        self.release(entry)
        return Group("recall", record, at)


def _either(words: tuple[str, ...]) -> str:
    named = [f"`{word}`" for word in words]
    return named[0] if len(named) == 1 else f"{', '.join(named[:-1])} or {named[-1]}"
