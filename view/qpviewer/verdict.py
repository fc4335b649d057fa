"""A verdict as `qp check` prints it, `broken D12 block 1 1`: the definition that fails and its site, in words."""

import re
from dataclasses import dataclass

from .faults import Fault
from .naming import Names

#: What each definition says (docs/DEFINITIONS.md), and what is wrong where it fails.
MEANINGS = {
    "D7": ("course", "the object's records aren't those that its chart makes of the events that it took"),
    "D9": ("drawn numbers", "the operations on one word aren't numbered 0, 1, 2 .. each once"),
    "D10": ("free blocks", "a block is given out that isn't the least free one, or comes back though it is free"),
    "D11": ("references", "a reference is dropped that doesn't stand"),
    "D12": ("lives of a block", "the block is given out or comes back while a reference stands, or lives without one"),
    "D13": ("line", "the queue isn't a line: its counts, what is taken, or its length aren't as they should be"),
    "D14": ("shown numbers", "a record shows the word as it wasn't"),
    "D15": ("shapes", "the object's records aren't a start and then whole steps, each call with its records"),
    "D16": ("subscribers", "an object subscribes that is subscribed, or the other way round"),
    "D17": ("deferral", "the deferred list isn't as the records say"),
    "D18": ("time events", "a counter isn't what ticks and calls leave"),
    "D19": ("kernel lane", "lane 0 isn't as the kernel makes it: starts, looks, floors, whole steps"),
    "D20": ("sources", "the lane isn't its source's stimuli in order, or the lanes have no common order"),
    "D21": ("end", "the run didn't end as it says"),
}

_VERDICT = re.compile(
    r"(?:qp: )?broken (D[0-9]+) (?:(pool|queue|signal|timer|object|lane) ([0-9]+)|(block) ([0-9]+) ([0-9]+)|(whole))\s*", re.ASCII
)


@dataclass(frozen=True)
class Verdict:
    """The definition that fails, and its site: a kind with its numbers (`block` has a pool's and its own)."""

    definition: str
    kind: str
    numbers: tuple[int, ...]

    @property
    def text(self) -> str:
        return " ".join(["broken", self.definition, self.kind, *map(str, self.numbers)])

    @property
    def word(self) -> tuple:
        """The word that it is about, as touches name it."""
        return (self.kind, *self.numbers)


def read_verdict(text: str) -> Verdict | None:
    """The verdict of a line of `qp check`; none for `lawful`."""
    if text.strip() == "lawful":
        return None
    found = _VERDICT.fullmatch(text)
    if not found or found[1] not in MEANINGS:
        raise Fault("", f"{text!r} isn't a verdict, as `lawful` or `broken D12 block 1 1`")
    if found[7]:
        return Verdict(found[1], "whole", ())
    if found[4]:
        return Verdict(found[1], "block", (int(found[5]), int(found[6])))
    return Verdict(found[1], found[2], (int(found[3]),))


def verdict_words(verdict: Verdict, names: Names) -> str:
    """A verdict in words: its definition, its site by name, and what that means."""
    title, meaning = MEANINGS[verdict.definition]
    site = "" if verdict.definition == "D19" else f" of {_site(verdict, names)}"
    return f"{title}{site}: {meaning}"


def _site(verdict: Verdict, names: Names) -> str:
    if verdict.kind == "whole":
        return "the whole journal"
    number = verdict.numbers[0]
    match verdict.kind:
        case "block":
            return f"block {verdict.numbers[1]} of pool {number}"
        case "queue":
            return f"the queue of {names.object(number)}"
        case "object":
            return names.object(number)
        case "signal":
            return names.signal(number)
        case "timer":
            return f"time event {names.timer(number)}"
    return f"{verdict.kind} {number}"
