"""Two runs of one system beside each other, each opened at the first place at which they part."""

from html import escape
from itertools import zip_longest
from pathlib import Path
from string import Template

from .journal import QV, SIM
from .page import page_of
from .story import Story

_PAGE = Path(__file__).resolve().parent / "assets" / "beside.html"


def parting(one: Story, other: Story) -> tuple[int, int] | None:
    """The first record of each run, as its place in the order, that isn't like the other's; the last one where a run has no more. None where
    the runs are the same.

    One thread makes one order, so its runs are compared record by record. Lanes of threads run beside one another, so they are compared lane
    by lane, and the lane whose difference comes first in the order of the first run is the one that is told.
    """
    if one.journal.kernel in (SIM, QV) and other.journal.kernel in (SIM, QV):
        return _first(one, other, _texts(one), _texts(other))
    found = []
    for lane in range(max(len(one.journal.lanes), len(other.journal.lanes))):
        mine, theirs = (story.journal.lanes[lane] if lane < len(story.journal.lanes) else [] for story in (one, other))
        at = _differs([record.text for record in mine], [record.text for record in theirs])
        if at is not None:
            found.append((_index(one, lane, at), _index(other, lane, at)))
    return min(found) if found else None


def _texts(story: Story) -> list[str]:
    return [f"{lane} {record.text}" for lane, record in story.records()]


def _first(one: Story, other: Story, mine: list[str], theirs: list[str]) -> tuple[int, int] | None:
    at = _differs(mine, theirs)
    return None if at is None else (min(at, max(len(mine) - 1, 0)), min(at, max(len(theirs) - 1, 0)))


def _differs(mine: list[str], theirs: list[str]) -> int | None:
    return next((at for at, (left, right) in enumerate(zip_longest(mine, theirs)) if left != right), None)


def _index(story: Story, lane: int, at: int) -> int:
    """The place in the order of a lane's record, or of its last one where it has no such; 0 for a lane without records."""
    own = [index for index, (of, _) in enumerate(story.order.places) if of == lane]
    return own[min(at, len(own) - 1)] if own else 0


def beside_text(one: Story, other: Story, names: tuple[str, str]) -> str:
    """Where two runs part, in words."""
    parts = parting(one, other)
    if parts is None:
        return "the runs are the same\n"
    return "".join(
        f"{name}: record {index + 1}, line {story.line_of(index)}: {' '.join(story.in_words(index))}\n" if story.order.places else f"{name}: no record\n"
        for name, story, index in zip(names, (one, other), parts)
    )


def beside_page(one: Story, other: Story, files: tuple[str, str, str, str]) -> str:
    """A page with the two runs; `files` are those of the system, the stimuli and the two journals."""
    parts = parting(one, other)
    first, second = parts or (0, 0)
    told = "The runs are the same." if parts is None else f"They part at record {first + 1:,} of the first and record {second + 1:,} of the second."
    pages = [page_of(story, (files[0], files[1], name), opens_at=index) for story, name, index in ((one, files[2], first), (other, files[3], second))]
    return Template(_PAGE.read_text(encoding="utf-8")).substitute(
        title=escape(f"{Path(files[2]).name} beside {Path(files[3]).name}"), told=escape(told),
        first=escape(pages[0]), second=escape(pages[1]), first_name=escape(files[2]), second_name=escape(files[3]),
    )
