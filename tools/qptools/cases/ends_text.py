"""Outcomes of runs in words, and whether all of them end as they should."""

from collections.abc import Iterator
from itertools import groupby

from .ends import Group, Orders, Outcome
from .orders import SETTLE, WAIT, Plan, lines_of


def orders_text(found: Orders, stimuli: list[list[str]], kept: list[str]) -> str:
    """The outcomes of orders, each with how many runs lead to it and the shortest plan."""
    late = f"{found.run_between} of {plural(found.between, 'run')} between" if found.waiting else "no run between, since each rate has a timer"
    ran = f"{found.run} of {plural(found.orders, 'order')} {'was' if found.run == 1 else 'were'} run"
    lines = [f"{ran}, at once and settled, and {late}, with {plural(len(found.groups), 'outcome')}"]
    for group, told in zip(found.groups, _told(found.groups, kept)):
        lines += told
        lines.append(f"  by the order {' '.join(str(part) for part in group.plan if part > 0)}:")
        lines += [f"    {line}" for line in _plan_lines(group.plan, stimuli, found.waiting)]
    return "".join(f"{line}\n" for line in lines)


def _plan_lines(plan: Plan, stimuli: list[list[str]], waiting: str) -> Iterator[str]:
    """A line for each part of a plan, those that let looks go by in one."""
    lines = iter(lines_of(plan, stimuli, waiting))
    for part, those in groupby(plan):
        many = [next(lines) for _ in those]
        if part == WAIT:
            yield f"{waiting}, which moves no timer{f', {len(many)} times' if len(many) > 1 else ''}"
        else:
            yield from (line if part == SETTLE else f"source {part}: {line}" for line in many)


def runs_text(groups: list[Group], kernel: str, kept: list[str]) -> str:
    """The outcomes of runs with threads, each with how many runs came to it."""
    ran = sum(group.count for group in groups)
    lines = [f"{plural(ran, 'run')} under {kernel}, with {plural(len(groups), 'outcome')}"]
    for told in _told(groups, kept):
        lines += told
    return "".join(f"{line}\n" for line in lines)


def _told(groups: list[Group], kept: list[str]) -> Iterator[list[str]]:
    """Of each outcome how it ends, the lines of its summary that not all others have too, and the journal that was kept of it."""
    common = set.intersection(*(set(group.outcome.lines) for group in groups)) if len(groups) > 1 else set()
    for number, group in enumerate(groups, 1):
        lines = [f"outcome {number}, of {plural(group.count, 'run')}, {end_in_words(group.outcome)}:"]
        lines += [f"  {line}" for line in group.outcome.lines if line not in common]
        yield lines + [f"  kept: {name}" for name in kept[number - 1:number]]


def end_in_words(outcome: Outcome) -> str:
    """How a run ends, and what stopped it."""
    return f"ends with {outcome.end}" + (f", {outcome.stop}" if outcome.stop else "")


def ends_text(groups: list[Group], end: int) -> tuple[bool, str]:
    """Whether all runs end so, and the line that says it."""
    ran = sum(group.count for group in groups)
    other = sum(group.count for group in groups if group.outcome.end != end)
    if not other:
        return True, f"pass  {_all(ran)} with {end}\n"
    return False, f"FAIL  {other} of {plural(ran, 'run')} {'ends' if other == 1 else 'end'} otherwise than with {end}\n"


def _all(ran: int) -> str:
    return "the run ends" if ran == 1 else f"all {ran} runs end"


def plural(count: int, thing: str) -> str:
    return f"{count} {thing}{'' if count == 1 else 's'}"
