"""The parts of a system, as its file names them."""

from dataclasses import dataclass, field


@dataclass(frozen=True)
class Pool:
    """A pool: how many parameters a block holds, and how many blocks there are."""

    size: int
    blocks: int


@dataclass(frozen=True)
class Signal:
    """A signal with its number, from 4 in the file's order."""

    name: str
    number: int
    params: int
    is_static: bool


@dataclass(frozen=True)
class Timer:
    """A time event of a chart; each object of the chart has its own."""

    name: str
    signal: Signal
    rate: int


@dataclass(eq=False)
class Row:
    """A row of a state: with no target it is an internal one."""

    on: Signal
    when: str | None
    do: list[str]
    to: "State | None"


@dataclass(eq=False)
class State:
    """A state with its number, from 1 in the chart's order."""

    number: int
    name: str
    parent: "State | None" = None
    entry: list[str] = field(default_factory=list)
    exit: list[str] = field(default_factory=list)
    init: "State | None" = None
    init_do: list[str] = field(default_factory=list)
    rows: list[Row] = field(default_factory=list)


@dataclass(eq=False)
class Chart:
    """A chart; `vars` has the first values of its variables."""

    name: str
    init: State
    init_do: list[str]
    vars: dict[str, int]
    timers: list[Timer]
    states: list[State]


@dataclass(eq=False)
class Object:
    """An active object; `queue` is its ring length, `defer` the capacity of its deferred list."""

    name: str
    chart: Chart
    priority: int
    threshold: int
    queue: int
    defer: int
    vars: dict[str, int]


@dataclass(frozen=True)
class TimeEvent:
    """An object's own instance of a timer; numbered from 1 by ascending priority, then by the chart's order."""

    number: int
    owner: Object
    timer: Timer


@dataclass
class System:
    """A system; objects stand in ascending priority."""

    pools: list[Pool]
    signals: dict[str, Signal]
    charts: dict[str, Chart]
    objects: list[Object]
    time_events: list[TimeEvent]
