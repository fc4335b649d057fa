"""What `./qp lint` tells: each finding with the path of its place and what to do."""

from collections.abc import Callable, Iterator
from typing import NamedTuple

from qpviewer.system_parts import Chart, Object, System

from .reached import never_taken, unreached
from .sites import Site, sites, start_sites

_POSTS = ("post", "lifo", "publish")


class Finding(NamedTuple):
    """A path of the system's file, and what is to be said of it."""

    path: str
    words: str


class Looked(NamedTuple):
    """A system as the rules look at it: its charts that an object uses with their numbers in the file, the numbers of objects in the file, the
    actions of each chart, and the signals of the stimuli, where there are any."""

    system: System
    charts: list[tuple[int, Chart]]
    places: dict[str, int]
    sites: dict[str, list[Site]]
    outside: set[str] | None

    def users(self, chart: Chart) -> list[Object]:
        return [owner for owner in self.system.objects if owner.chart is chart]


def look(system: System, places: dict[str, int], outside: set[str] | None) -> Looked:
    """Reads the actions of a system's charts once. `places` are the objects' numbers in the file."""
    used = {owner.chart.name for owner in system.objects}
    charts = [(number, chart) for number, chart in enumerate(system.charts.values(), 1) if chart.name in used]
    return Looked(system, charts, places, {chart.name: list(sites(chart, number)) for number, chart in charts}, outside)


def findings(looked: Looked) -> list[Finding]:
    """What all rules find."""
    return [found for rule in _RULES for found in rule(looked)]


def _published_for_nobody(looked: Looked) -> Iterator[Finding]:
    subscribed = {site.action.name for of in looked.sites.values() for site in of if site.action.word == "subscribe"}
    for _, chart in looked.charts:
        for path, action in looked.sites[chart.name]:
            if action.word == "publish" and action.name not in subscribed:
                yield Finding(path, f"{action.name} is published, and no object subscribes to it: "
                                    f"write `subscribe {action.name}` into the `init_do` of a chart that takes it, or post it")


def _posted_by_nobody(looked: Looked) -> Iterator[Finding]:
    posted = {site.action.name for of in looked.sites.values() for site in of if site.action.word in _POSTS}
    posted |= {signal for _, chart in looked.charts for signal in _of_timers(chart, looked.sites[chart.name])} | (looked.outside or set())
    taken = {row.on.name for _, chart in looked.charts for state in chart.states for row in state.rows}
    for number, signal in enumerate(looked.system.signals.values(), 1):
        if signal.name in posted or looked.outside is None and signal.name in taken:
            continue
        if signal.name not in taken:
            words = "no chart posts it and no row takes it: leave it out"
        else:
            words = "no chart and no stimulus posts it, so its rows are never taken: post it, or leave it out"
        yield Finding(f"signal.{number}.name", f"signal {signal.name}: {words}")


def _of_timers(chart: Chart, of: list[Site]) -> set[str]:
    """The signals of the timers that a chart arms."""
    armed = {site.action.name for site in of if site.action.word in ("arm", "rearm")}
    return {timer.signal.name for timer in chart.timers if timer.name in armed}


def _states(looked: Looked) -> Iterator[Finding]:
    for number, chart in looked.charts:
        for state in unreached(chart):
            yield Finding(f"chart.{number}.state.{state.number}.name",
                          f"chart {chart.name}, state {state.name}: nothing reaches it: give a row the target `to = \"{state.name}\"`, or leave it out")


def _rows(looked: Looked) -> Iterator[Finding]:
    for number, chart in looked.charts:
        for state in chart.states:
            for row, why in never_taken(state):
                yield Finding(f"chart.{number}.state.{state.number}.row.{row}",
                              f"chart {chart.name}, state {state.name}, row {row} (on {state.rows[row - 1].on.name}) is never taken: {why}; "
                              "change its guard, or leave it out")


def _deferred(looked: Looked) -> Iterator[Finding]:
    for _, chart in looked.charts:
        if not any(site.action.word == "defer" for site in looked.sites[chart.name]):
            continue
        for owner in looked.users(chart):
            if owner.defer == 0:
                yield Finding(f"object.{looked.places[owner.name]}",
                              f"object {owner.name} keeps no deferred events, and its chart {chart.name} defers: write `defer = 4`, say, into its table")


def _margins(looked: Looked) -> Iterator[Finding]:
    for _, chart in looked.charts:
        for path, action in looked.sites[chart.name]:
            if action.margin is None:
                continue
            for owner in looked.users(chart) if action.target == "me" else [other for other in looked.system.objects if other.name == action.target]:
                if action.margin > owner.queue:
                    places = "1 place" if owner.queue == 0 else f"{owner.queue + 1} places"
                    own = " of its own" if action.target == "me" else ""
                    yield Finding(path, f"`{action.text}` never posts: the queue{own} of {owner.name} has {places} and more than {action.margin} must be free; "
                                        f"lower the margin, or raise `queue`")


def _reserves(looked: Looked) -> Iterator[Finding]:
    for _, chart in looked.charts:
        for path, action in looked.sites[chart.name]:
            if not action.reserve or action.name not in looked.system.signals:
                continue
            params = looked.system.signals[action.name].params
            pool = next((pool for pool in looked.system.pools if pool.size >= params), None)
            if pool and action.reserve >= pool.blocks:
                yield Finding(path, f"`{action.text}` never makes its event: its pool has {pool.blocks} blocks and more than {action.reserve} must be free; "
                                    "lower the reserve, or raise `blocks`")


def _starts(looked: Looked) -> Iterator[Finding]:
    priorities = {owner.name: owner.priority for owner in looked.system.objects}
    for number, chart in looked.charts:
        for path, action in start_sites(chart, number):
            late = [owner.name for owner in looked.users(chart) if action.word == "post" and priorities.get(action.target, 0) > owner.priority]
            if late:
                yield Finding(path, f"{' and '.join(late)} {'posts' if len(late) == 1 else 'post'} in {'its' if len(late) == 1 else 'their'} start to "
                                    f"{action.target}, which starts later: QP/C asserts there; start {action.target} first, or post from a row")


_RULES: tuple[Callable[[Looked], Iterator[Finding]], ...] = (
    _published_for_nobody, _posted_by_nobody, _states, _rows, _deferred, _margins, _reserves, _starts,
)
