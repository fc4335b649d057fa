"""The numbers of operations, counted where all records stand in one order without numbers."""

from collections import Counter

from .records import Raw

Word = tuple

DRAWN = {"took", "post", "lifo", "new", "back", "inc", "dec", "sub", "unsub", "arm", "disarm", "rearm", "tick", "fire"}

#: The kind of the word that a record is an operation on, or shows, and how many of its first numbers are the word's name; a queue
#: that none of them names is the own one.
_NAMED = {
    "took": ("queue", 0), "nil": ("queue", 0), "lifo": ("queue", 0), "post": ("queue", 1), "full": ("queue", 1), "seen": ("queue", 1),
    "new": ("pool", 1), "back": ("pool", 1), "short": ("pool", 1), "inc": ("block", 2), "dec": ("block", 2),
    "pub": ("signal", 1), "sub": ("signal", 1), "unsub": ("signal", 1), "same": ("signal", 1),
    "arm": ("timer", 1), "disarm": ("timer", 1), "rearm": ("timer", 1), "idle": ("timer", 1), "tick": ("timer", 1), "fire": ("timer", 1),
}
_ASSERTED = {1: "queue", 2: "pool", 3: "timer", 5: "queue"}


def word_of(raw: Raw) -> Word | None:
    """The word that a record is an operation on, or shows, by its real name."""
    rule = _NAMED.get(raw.word)
    if rule is None:
        return (_ASSERTED[raw.values[0]], raw.values[1]) if raw.word == "assert" and raw.values[0] in _ASSERTED else None
    kind, names = rule
    if names == 1:
        return kind, raw.values[0]
    return (kind, *raw.values[:names]) if names else (kind, raw.who)


#: How many operations each time event had where a source's stimulus begins, by who and place; behind the last one, at the end.
Moments = dict[tuple[int, int], dict[int, int]]


def counted(order: list[Raw]) -> tuple[dict[int, list[Raw]], Moments]:
    """The lanes of an order, with numbers, and the moments of its stimuli."""
    counts: Counter[Word] = Counter()
    timers: dict[int, int] = {}
    lanes: dict[int, list[Raw]] = {}
    moments: Moments = {}
    for raw in order:
        lane = lanes.setdefault(raw.who, [])
        if raw.word in ("stim", "settle"):
            moments[raw.who, len(lane)] = dict(timers)
        if word := word_of(raw):
            number = counts[word]
            shown = counts["block", raw.values[0], raw.values[1]] if raw.word in ("new", "back") else raw.shown
            if raw.word in DRAWN:
                counts[word] = number + 1
                if word[0] == "timer":
                    timers[word[1]] = number + 1
            raw = Raw(raw.who, raw.word, raw.values, number, shown)
        lane.append(raw)
    for who, lane in lanes.items():
        moments[who, len(lane)] = dict(timers)
    return lanes, moments
