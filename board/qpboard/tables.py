"""The texts of NAME.h and NAME.c: a system as const tables for `qp_board.h`, and the memory that it works in."""

from typing import NamedTuple

from qpviewer.faults import Fault
from qpviewer.system_parts import Chart, Object, Signal, State, System

from .c_names import CNames, charts_of
from .chart_text import chart_lines
from .code import Code
from .numbers import OPERATIONS

_NARROW = range(-(2**31), 2**31)
_MOST_SHORT = 2**16 - 1


class Printed(NamedTuple):
    """The two texts of a system."""

    head: str
    body: str


class _Chart(NamedTuple):
    """A chart's tables as lines, with its code."""

    code: Code
    lines: list[str]
    has_wide_numbers: bool


def tables_of(system: System, name: str, source: str) -> Printed:
    """The texts of NAME.h and NAME.c; `source` is the file that they are of. Raises `Fault` for an action that can't be done."""
    names = CNames(system)
    charts = charts_of(system)
    made = [_chart(system, chart, number) for number, chart in enumerate(charts, 1)]
    title = f"of {source}, printed by board/qpc; don't change it, print it anew"
    return Printed(_head(system, name, title, names, made), _body(system, name, title, made))


def pool_of(system: System, signal: Signal) -> int:
    """The pool that a signal's events come from, 0 for a static one."""
    if signal.is_static:
        return 0
    found = next((number for number, pool in enumerate(system.pools, 1) if pool.size >= signal.params), None)
    if found is None:
        raise Fault(f"signal {signal.name}", "no pool has room for its parameters")
    return found


def number_text(value: int) -> str:
    """A value as C has it; C has no name for the least one."""
    if value == -(2**63):
        return "INT64_MIN"
    return str(value) if value in _NARROW else f"INT64_C({value})"


# NAME.h


def _head(system: System, name: str, title: str, names: CNames, made: list[_Chart]) -> str:
    guard = f"{name.upper()}_H"
    used = set().union(*(chart.code.used for chart in made))
    wide = any(chart.has_wide_numbers for chart in made) or any(value not in _NARROW for owner in system.objects for value in owner.vars.values())
    lines = [f"/* {name}.h: names and sizes {title}. */", f"#ifndef {guard}", f"#define {guard}", ""]
    if signals := [f"    {names.signals[signal.name]} = {signal.number}," for signal in system.signals.values()]:
        lines += ["enum { /* signals */", *signals, "};"]
    objects = [f"    {names.objects[owner.name]} = {place}, /* priority {owner.priority} */" for place, owner in enumerate(system.objects)]
    lines += ["enum { /* objects, by their places */", *objects, "};", "enum { /* states, by their charts */"]
    lines += [f"    {names.states[chart.name, state.name]} = {state.number}," for chart in charts_of(system) for state in chart.states]
    lines += ["};", ""]
    sizes = {"OBJECTS": len(system.objects), "POOLS": len(system.pools), "SIGNALS": len(system.signals), "TIMERS": len(system.time_events)}
    lines += [f"#define QPB_{key} {value}" for key, value in sizes.items()]
    lines.append(f"#define QPB_STACK {max(chart.code.deepest for chart in made)}")
    if any(chart.code.size > _MOST_SHORT for chart in made):
        lines.append("#define QPB_PLACE uint32_t")
    if wide:
        lines.append("#define QPB_NEEDS_64")
    lines += ["/* What the charts do; the compiler leaves the rest of the interpreter out. */", "#define QPB_USED ( \\"]
    lines.append(" | \\\n".join(f"    UINT64_C(1) << QPB_OP_{op.name}" for op in OPERATIONS if op.name in used) + ")")
    return "\n".join([*lines, "", '#include "qp_board.h"', "", "#endif", ""])


# NAME.c


def _body(system: System, name: str, title: str, made: list[_Chart]) -> str:
    lines = [f"/* {name}.c: tables and memory {title}. */", f'#include "{name}.h"', ""]
    for chart in made:
        lines += chart.lines
    lines += ["/* Objects: their queues, deferred lists and variables. */"]
    for owner in system.objects:
        lines += _memory(owner)
    lines += ["qpb_object const qpb_objects[] = {", *_objects(system), "};", "", "/* Pools: blocks, and the parameters of their events. */"]
    for number, pool in enumerate(system.pools, 1):
        lines.append(f"static qpb_block l_blocks_{number}[{pool.blocks}];")
        if pool.size:
            lines.append(f"static qpb_int l_params_{number}[{pool.blocks * pool.size}];")
    pools = [f"    {{ l_blocks_{number}, {f'l_params_{number}' if pool.size else 'NULL'}, {pool.size}, {pool.blocks} }},"
             for number, pool in enumerate(system.pools, 1)]
    lines += ["qpb_pool const qpb_pools[] = {", *(pools or ["    { NULL, NULL, 0, 0 },"]), "};"]
    signals = [f"    {{ {pool_of(system, signal)}, {signal.params} }}, /* {signal.name} */" for signal in system.signals.values()]
    lines += ["qpb_signal const qpb_signals[] = {", *(signals or ["    { 0, 0 },"]), "};"]
    places = {owner.name: place for place, owner in enumerate(system.objects)}
    timers = [f"    {{ {places[event.owner.name]}, {event.timer.signal.number}, {event.timer.rate} }}, /* {event.owner.name}.{event.timer.name} */"
              for event in system.time_events]
    lines += ["qpb_timer const qpb_timers[] = {", *(timers or ["    { 0, 0, 0 },"]), "};"]
    return "\n".join([*lines, "", "#define QPB_BODY", '#include "qp_board.h"', ""])


def _memory(owner: Object) -> list[str]:
    prio = owner.priority
    lines = [f"static qpb_entry l_queue_{prio}[{owner.queue + 1}];"]
    if owner.defer:
        lines.append(f"static qpb_entry l_deferred_{prio}[{owner.defer}];")
    if owner.vars:
        values = ", ".join(number_text(owner.vars[name]) for name in owner.chart.vars)
        lines += [f"static qpb_int l_vars_{prio}[{len(owner.vars)}];", f"static qpb_int const l_first_{prio}[] = {{ {values} }};"]
    return lines


def _objects(system: System) -> list[str]:
    charts = charts_of(system)
    lines, timers = [], 0
    for owner in system.objects:
        prio = owner.priority
        first, own = (f"l_first_{prio}", f"l_vars_{prio}") if owner.vars else ("NULL", "NULL")
        deferred = f"l_deferred_{prio}" if owner.defer else "NULL"
        lines.append(f"    {{ &l_chart_{charts.index(owner.chart) + 1}, {first}, {own}, l_queue_{prio}, {deferred}, "
                     f"{prio}, {owner.threshold}, {owner.queue}, {owner.defer}, {timers} }}, /* {owner.name} */")
        timers += len(owner.chart.timers)
    return lines


def _chart(system: System, chart: Chart, number: int) -> _Chart:
    code = Code(system, chart)
    try:
        init_do = code.list_at(chart.init_do)
        states, rows = ["    { 0, 0, 0, 0, 0, 0, 0 },"], list[str]()
        for state in chart.states:
            states.append(_state(code, state, len(rows)))
            rows += _rows(code, state)
    except Fault as fault:
        raise Fault(f"chart {chart.name}", str(fault)) from None
    comment = [f" * {line}" for line in chart_lines(chart)]
    lines = [f"/*{comment[0][2:]}", *comment[1:], " */", f"static uint8_t const l_code_{number}[] = {{", *code.lines, "};"]
    lines += [f"static qpb_state const l_states_{number}[] = {{", *states, "};"]
    lines += [f"static qpb_row const l_rows_{number}[] = {{", *(rows or ["    { 0, 0, 0, 0 },"]), "};"]
    lines += [f"static qpb_chart const l_chart_{number} = {{",
              f"    l_states_{number}, l_rows_{number}, l_code_{number}, {init_do}, {chart.init.number}, {len(chart.vars)}", "};", ""]
    return _Chart(code, lines, "N8" in code.used)


def _state(code: Code, state: State, first_row: int) -> str:
    parent, init = (other.number if other else 0 for other in (state.parent, state.init))
    places = f"{code.list_at(state.entry)}, {code.list_at(state.exit)}, {code.list_at(state.init_do)}"
    return f"    {{ {parent}, {init}, {len(state.rows)}, {first_row}, {places} }}, /* {state.number} {state.name} */"


def _rows(code: Code, state: State) -> list[str]:
    return [f"    {{ {row.on.number}, {row.to.number if row.to else 0}, {code.guard_at(row.when)}, {code.list_at(row.do)} }}, "
            f"/* {state.name} {number}: {row.on.name} */" for number, row in enumerate(state.rows, 1)]
