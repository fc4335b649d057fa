"""What of a system QP/C does otherwise: it is told at the head of the sources."""

from collections.abc import Iterator

from qpviewer.actions import read_action
from qpviewer.system_parts import Chart, State, System
from qpviewer.tree import path_of

from .c_names import charts_of
from .qpc_chart import actions_of


def gaps(system: System) -> list[str]:
    """What of this system doesn't map, each as part of a sentence."""
    return [*_starts(system), *_ticks(system), *_references(system)]


def _starts(system: System) -> Iterator[str]:
    """QP/C starts the objects one after another, and asserts on a post to one whose queue isn't there yet."""
    priorities = {owner.name: owner.priority for owner in system.objects}
    for owner in system.objects:
        for text in _texts_of_start(owner.chart):
            action = read_action(text)
            for one in action.inner or [action]:
                if one.word in ("post", "forward") and priorities.get(one.target, 0) > owner.priority:
                    yield f"the start of {owner.name} does `{text}`, and {one.target} starts later"


def _texts_of_start(chart: Chart) -> Iterator[str]:
    yield from chart.init_do
    state: State | None = chart.init
    around: State | None = None
    while state:
        path = path_of(state)
        entered = path[:path.index(around)] if around in path else path
        for one in reversed(entered):
            yield from one.entry
        yield from state.init_do
        around, state = state, state.init


def _ticks(system: System) -> Iterator[str]:
    """QP/C serves the time events of a rate in the order in which they were armed."""
    for owner in system.objects:
        rates = [timer.rate for timer in owner.chart.timers]
        if len(set(rates)) < len(rates):
            yield f"{owner.name} has two time events of one rate: where both fire in one tick, they are posted in the order of their arming"


def _references(system: System) -> Iterator[str]:
    """QP/C counts references in few bits."""
    entries = sum(owner.queue + 1 + owner.defer for owner in system.objects)
    if entries > 100 and any(action.word in ("publish", "forward", "defer") for chart in charts_of(system) for action in actions_of(chart)):
        yield f"the queues and deferred lists have {entries} entries: an event that were in all of them would have more references than QP/C counts"
