"""A system as sources for QP/C 8: NAME.h with signals and events, NAME.c with state handlers, active objects and pools."""

import re
from collections import Counter

from qpviewer.faults import Fault
from qpviewer.system_parts import Chart, Object, System

from .c_names import charts_of
from .qpc_chart import ChartSource
from .qpc_gaps import gaps
from .tables import number_text

#: What a line at the outermost level defines: a type, an object, a function.
_DECLARED = re.compile(r"^(?=\S)(?:\} ([A-Za-z0-9_]+);|(?:static )?[A-Za-z0-9_ ]+[ *]([A-Za-z0-9_]+)(?:\[.*\])?(?:;| = .*)|.*?(\w+)\(.*\) \{)$", re.M)

#: The texts of files by their names.
Texts = dict[str, str]


def qpc_texts(system: System, name: str, source: str) -> Texts:
    """NAME.h and NAME.c. Raises `Fault` where two things would have one name in C."""
    title = f"of {source} for QP/C 8, printed by board/qpc"
    texts = {f"{name}.h": _head(system, name, title), f"{name}.c": _body(system, name, title)}
    declared = Counter("".join(names) for names in _DECLARED.findall(texts[f"{name}.c"]))
    if twice := [one for one, count in declared.items() if count > 1]:
        raise Fault(twice[0], "two things of the system have this name in C")
    return texts


def _head(system: System, name: str, title: str) -> str:
    lines = [f"/* {name}.h: signals and events {title}.", *(f" * In QP/C otherwise: {gap}." for gap in gaps(system)), " */"]
    lines += [f"#ifndef {name.upper()}_H", f"#define {name.upper()}_H", "", '#include "qpc.h"', '#include "qpc_values.h"', ""]
    signals = [f"    {signal.name}_SIG{' = Q_USER_SIG' if place == 0 else ''}," for place, signal in enumerate(system.signals.values())]
    lines += [f"enum {name}_Signals {{", *signals, f"    MAX_SIG{'' if signals else ' = Q_USER_SIG'}", "};", ""]
    for signal in system.signals.values():
        if signal.params:
            params = [f"    int64_t p{place};" for place in range(1, signal.params + 1)]
            lines += ["typedef struct {", "    QEvt super;", *params, f"}} {signal.name}_Evt;", ""]
    lines += [f"extern QActive * const AO_{owner.name};" for owner in system.objects]
    lines += ["", "void qpc_start(void); /* pools, publishing, and the starts of all objects, lowest first */",
              "void BSP_say(QActive const *who, int64_t value); /* the board's: what `say` tells */", "", "#endif", ""]
    return "\n".join(lines)


def _body(system: System, name: str, title: str) -> str:
    charts = {chart: ChartSource(system, chart, [owner for owner in system.objects if owner.chart is chart]) for chart in charts_of(system)}
    handlers = [line for chart in charts.values() for line in chart.lines()]
    text = "\n".join(handlers)
    lines = [f"/* {name}.c: active objects {title}. */", f'#include "{name}.h"', ""]
    lines += [f"static QEvt const {signal.name}_evt = QEVT_INITIALIZER({signal.name}_SIG);"
              for signal in system.signals.values() if signal.is_static and f"&{signal.name}_evt" in text]
    lines += ["", *handlers, "/* The objects, their queues and the pools. */"]
    for owner in system.objects:
        lines += _memory(owner, charts[owner.chart])
    for number, pool in enumerate(system.pools, 1):
        params = f"int64_t p[{pool.size}]; " if pool.size else ""
        lines.append(f"static QF_MPOOL_EL(struct {{ QEvt super; {params}}}) pool_{number}_[{pool.blocks}];")
    lines += ["static QSubscrList subscribers_[MAX_SIG];", "", "void qpc_start(void) {", "    QActive_psInit(subscribers_, Q_DIM(subscribers_));"]
    lines += [f"    QF_poolInit(pool_{number}_, sizeof(pool_{number}_), sizeof(pool_{number}_[0]));" for number in range(1, len(system.pools) + 1)]
    for owner in system.objects:
        lines += ["", *(f"    {line}" for line in _construct(owner, charts[owner.chart]))]
    lines.append("")
    lines += [f"    {_start(owner)}" for owner in system.objects]
    return "\n".join([*lines, "}", "", *_states(system, charts)])


def _states(system: System, charts: dict[Chart, ChartSource]) -> list[str]:
    """For who records: the states by their numbers."""
    lines = ["#ifdef QPC_STATES /* for a recorder: the states of each chart by their numbers, and the charts of the objects */"]
    for chart, source in charts.items():
        states = [f"    Q_STATE_CAST(&{source.handler(state)})," for state in chart.states]
        lines += [f"static QStateHandler const {source.kind}_states_[] = {{", *states, "};"]
    objects = [f"    {charts[owner.chart].kind}_states_," for owner in system.objects]
    return [*lines, "QStateHandler const * const qpc_states[] = {", *objects, "};", "#endif", ""]


def _memory(owner: Object, chart: ChartSource) -> list[str]:
    lines = [f"static {chart.kind} l_{owner.name};", f"QActive * const AO_{owner.name} = &l_{owner.name}.super;"]
    if owner.queue:
        lines.append(f"static QEvtPtr l_{owner.name}_queue[{owner.queue}];")
    if chart.defers and owner.defer > 1:
        lines.append(f"static QEvtPtr l_{owner.name}_deferred[{owner.defer - 1}]; /* and one in front of them */")
    return lines


def _construct(owner: Object, chart: ChartSource) -> list[str]:
    me = f"l_{owner.name}"
    lines = [f"QActive_ctor(&{me}.super, Q_STATE_CAST(&{chart.initial()}));"]
    lines += [f"QTimeEvt_ctorX(&{me}.t_{timer.name}, &{me}.super, {timer.signal.name}_SIG, {timer.rate}U);" for timer in owner.chart.timers]
    lines += [f"{me}.v_{name} = {number_text(owner.vars[name])};" for name in owner.chart.vars if owner.vars[name]]
    if chart.defers:
        ring = f"{me}_deferred" if owner.defer > 1 else "NULL"
        lines.append(f"QEQueue_init(&{me}.deferred, {ring}, {max(owner.defer - 1, 0)}U);")
    if chart.has_limit:
        lines.append(f"{me}.hasDeferred = {str(owner.defer > 0).lower()};")
    return lines


def _start(owner: Object) -> str:
    ring = f"l_{owner.name}_queue" if owner.queue else "NULL"
    return f"QActive_start(AO_{owner.name}, Q_PRIO({owner.priority}U, {owner.threshold}U), {ring}, {owner.queue}U, NULL, 0U, NULL);"
