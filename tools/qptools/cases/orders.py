"""The orders in which the stimuli of several sources may happen, and how late they may: the plans of runs with one thread."""

from collections.abc import Iterable, Iterator, Sequence
from math import comb
from typing import NamedTuple

#: An order: the number of the source of each stimulus, from 1.
Order = tuple[int, ...]
#: A plan: an order with what stands in front of its stimuli, a `settle`, or a stimulus that does nothing but let a look go by.
Plan = tuple[int, ...]
SETTLE, WAIT = 0, -1


class Between(NamedTuple):
    """A place for a stimulus while what came before it is still at work: an order, the stimulus' place in it from 0, and in how many looks
    it may happen before all queues are empty."""

    order: Order
    place: int
    looks: int


def count_of(lengths: list[int]) -> int:
    """How many orders there are of so many stimuli of each source."""
    total, number = 0, 1
    for length in lengths:
        total += length
        number *= comb(total, length)
    return number


def orders(lengths: list[int]) -> Iterator[Order]:
    """All orders, those with few changes of source first; each source's stimuli keep their order."""
    for changes in range(max(sum(lengths), 1)):
        yield from _with(tuple(lengths), 0, changes)


def _with(left: tuple[int, ...], last: int, changes: int) -> Iterator[Order]:
    """The orders of what is left behind a stimulus of source `last`, 0 for none, with just so many changes."""
    if not any(left):
        if not changes:
            yield ()
        return
    if sum(1 for source, number in enumerate(left, 1) if number and source != last) > changes + (not last):
        return
    for source, number in enumerate(left, 1):
        is_change = last not in (0, source)
        if number and changes >= is_change:
            rest = left[:source - 1] + (number - 1,) + left[source:]
            for order in _with(rest, source, changes - is_change):
                yield (source, *order)


def settled(order: Order) -> Plan:
    """The latest that each stimulus can come: with a `settle` in front of it."""
    return tuple(part for source in order for part in (SETTLE, source))


def places_between(order: Order, looks: Sequence[int], last: int) -> list[Between]:
    """The places for stimuli between the steps of a settled run: `looks` has the number of the look in which each part of its plan
    happened, and `last` is the number of its last look."""
    found = []
    for place in range(len(order)):
        if 2 * place > len(looks):
            break
        before = looks[2 * place - 1] if place else 0
        settle = looks[2 * place] if 2 * place < len(looks) else last + 1
        if settle - before > 1:
            found.append(Between(order, place, settle - before - 1))
    return found


def between(places: Iterable[Between]) -> Iterator[Plan]:
    """The plans in which one stimulus comes while what came before it is still at work, and all others are settled; those with the
    shortest waits first."""
    left, wait = list(places), 0
    while left:
        for order, place, _ in left:
            parts: list[Plan] = [(SETTLE, source) for source in order]
            parts[place] = (WAIT,) * wait + (order[place],)
            yield tuple(part for those in parts for part in those)
        wait += 1
        left = [those for those in left if those.looks > wait]


def lines_of(plan: Plan, stimuli: list[list[str]], waiting: str) -> list[str]:
    """The stimuli of a plan as one source's, with the line that lets a look go by."""
    places = [iter(lines) for lines in stimuli]
    free = {SETTLE: "settle", WAIT: waiting}
    return [free[part] if part in free else next(places[part - 1]) for part in plan]


def text_of(lines: Iterable[str]) -> str:
    """Lines as the file of one source."""
    return "".join(f"{line}\n" for line in ("source 1", *lines))
