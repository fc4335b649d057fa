"""Reads a system's file (docs/FORMATS.md, section 1) as far as it is drawn.

Actions and guards are kept as texts. `qp check` says of a faulty file which fault comes first, with its code.
"""

import tomllib
from typing import Any

from .faults import Fault
from .system_parts import Chart, Object, Pool, Row, Signal, State, System, TimeEvent, Timer
from .toml_table import Table

#: The number of the first signal of a file; those below it are reserved.
FIRST_SIGNAL = 4
DEEPEST = 6
#: The keys that each table may have.
KEYS = {
    "top": {"qp", "pool", "signal", "chart", "object"},
    "pool": {"size", "blocks"},
    "signal": {"name", "params", "static"},
    "chart": {"name", "init", "init_do", "vars", "timer", "state"},
    "timer": {"name", "signal", "rate"},
    "state": {"name", "parent", "entry", "exit", "init", "init_do", "row"},
    "row": {"on", "when", "do", "to"},
    "object": {"name", "chart", "priority", "threshold", "queue", "defer", "vars"},
}


def read_tree(data: bytes) -> dict[str, Any]:
    """The TOML of a file's bytes, which may begin with a byte order mark. Raises `Fault` where it is none."""
    try:
        return tomllib.loads(data.decode("utf-8-sig"))
    except (tomllib.TOMLDecodeError, UnicodeDecodeError) as error:
        raise Fault("", f"isn't TOML: {error}") from None
    except RecursionError:
        raise Fault("", "isn't TOML that this reader takes: it nests too deep") from None
    except ValueError:
        # Python reads no number of more than some thousand digits
        raise Fault("", "isn't TOML that this reader takes: a number is too long") from None


def read_system(data: bytes) -> System:
    """The system of a file's bytes. Raises `Fault` with a path of keys where the file is faulty."""
    tree = read_tree(data)
    top = Table(tree, "", KEYS["top"])
    top.integer("qp", 1, 1)
    pools = [_pool(table) for table in top.tables("pool", KEYS["pool"], 0, 15)]
    signals = _signals(top)
    charts = _charts(top, signals)
    objects = _objects(top, charts)
    time_events = [
        TimeEvent(number, owner, timer)
        for number, (owner, timer) in enumerate(
            ((owner, timer) for owner in objects for timer in owner.chart.timers), 1
        )
    ]
    return System(pools, signals, charts, objects, time_events)


def _pool(table: Table) -> Pool:
    return Pool(table.integer("size", 0, 8), table.integer("blocks", 1, 32))


def _signals(top: Table) -> dict[str, Signal]:
    signals: dict[str, Signal] = {}
    for table in top.tables("signal", KEYS["signal"], 0, 200):
        name = table.new_name("name", signals)
        params = table.integer("params", 0, 8, 0)
        signals[name] = Signal(name, FIRST_SIGNAL + len(signals), params, table.boolean("static"))
    return signals


def _charts(top: Table, signals: dict[str, Signal]) -> dict[str, Chart]:
    charts: dict[str, Chart] = {}
    for table in top.tables("chart", KEYS["chart"], 1, 32):
        name = table.new_name("name", charts)
        charts[name] = _chart(name, table, signals)
    return charts


def _chart(name: str, table: Table, signals: dict[str, Signal]) -> Chart:
    timers: dict[str, Timer] = {}
    for timer in table.tables("timer", KEYS["timer"], 0, 8):
        key = timer.new_name("name", timers)
        timers[key] = Timer(key, signals[timer.known("signal", signals)], timer.integer("rate", 0, 3))
    tables = table.tables("state", KEYS["state"], 1, 64)
    states: dict[str, State] = {}
    for number, entry in enumerate(tables, 1):
        states[entry.new_name("name", states)] = State(number, entry.name("name"))
    for entry in tables:
        _fill_state(states[entry.name("name")], entry, states, signals)
    for entry in tables:
        _check_tree(states[entry.name("name")], entry)
    init = states[table.known("init", states)]
    return Chart(
        name, init, table.texts("init_do"), table.numbers("vars"), list(timers.values()), list(states.values())
    )


def _fill_state(state: State, table: Table, states: dict[str, State], signals: dict[str, Signal]) -> None:
    state.parent = table.known_or_none("parent", states)
    state.entry, state.exit = table.texts("entry"), table.texts("exit")
    state.init = table.known_or_none("init", states)
    state.init_do = table.texts("init_do")
    for row in table.tables("row", KEYS["row"], 0, 32):
        signal = signals[row.known("on", signals)]
        state.rows.append(Row(signal, row.text_or_none("when"), row.texts("do"), row.known_or_none("to", states)))


def _check_tree(state: State, table: Table) -> None:
    """A picture needs paths that end, and initial targets below their states."""
    path = [state]
    while path[-1].parent:
        path.append(path[-1].parent)
        if path[-1] in path[:-1]:
            raise table.fault("parent", "a state is among its own ancestors")
        if len(path) > DEEPEST:
            raise table.fault("parent", f"a state has more than {DEEPEST - 1} ancestors")
    if state.init and state not in _ancestors(state.init):
        raise table.fault("init", "the initial state isn't below this one")


def _ancestors(state: State) -> list[State]:
    above: list[State] = []
    while state.parent and len(above) < DEEPEST:
        state = state.parent
        above.append(state)
    return above


def _objects(top: Table, charts: dict[str, Chart]) -> list[Object]:
    objects: dict[str, Object] = {}
    taken: set[int] = set()
    for table in top.tables("object", KEYS["object"], 1, 32):
        name = table.new_name("name", objects)
        chart = charts[table.known("chart", charts)]
        priority = table.integer("priority", 1, 32)
        if priority in taken:
            raise table.fault("priority", "another object has this priority")
        taken.add(priority)
        objects[name] = Object(
            name, chart, priority, table.integer("threshold", priority, 32, priority),
            table.integer("queue", 0, 255), table.integer("defer", 0, 255, 0), chart.vars | table.numbers("vars"),
        )
    return sorted(objects.values(), key=lambda entry: entry.priority)
