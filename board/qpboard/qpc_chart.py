"""A chart as state handlers for QP/C 8."""

from collections.abc import Iterator

from qpviewer.actions import Action, names_in, read_action, read_expression
from qpviewer.system_parts import Chart, Object, Row, Signal, State, System

from .chart_text import chart_lines
from .qpc_values import guard_text, value_text

#: Words of actions that need a list of deferred events.
_DEFERRING = {"defer", "recall", "flush"}


def actions_of(chart: Chart) -> Iterator[Action]:
    """All actions of a chart, those within `locked` too."""
    for state in chart.states:
        for texts in (state.entry, state.exit, state.init_do, *(row.do for row in state.rows)):
            yield from _plain(texts)
    yield from _plain(chart.init_do)


def _plain(texts: list[str]) -> Iterator[Action]:
    for text in texts:
        action = read_action(text)
        yield from action.inner or [action]


class ChartSource:
    """The C of a chart."""

    def __init__(self, system: System, chart: Chart, objects: list[Object]):
        self._system, self._chart = system, chart
        self.kind = f"{chart.name}_Ao"
        actions = list(actions_of(chart))
        guards = [read_expression(row.when) for state in chart.states for row in state.rows if row.when is not None]
        trees = [value for action in actions for value in action.values] + guards
        self._variables = list(chart.vars)
        self._reads_ok = any("ok" in names_in(tree) for tree in trees)
        self.defers = any(action.word in _DEFERRING for action in actions)
        self.has_limit = self.defers and any(owner.defer == 0 for owner in objects)
        self._subscribed = sorted({action.name for action in actions if action.word in ("subscribe", "unsubscribe")}) if self._reads_ok else []
        self._lines: list[str] = []
        self._depth = 0

    def lines(self) -> list[str]:
        """The comment, the type and the handlers."""
        comment = [f" * {line}" for line in chart_lines(self._chart)]
        self._lines = [f"/*{comment[0][2:]}", *comment[1:], " */"]
        self._type()
        for state in self._chart.states:
            self._put(f"static QState {self.handler(state)}({self.kind} * const me, QEvt const * const e);")
        self._put("")
        self._put(f"static QState {self.initial()}({self.kind} * const me, void const * const par) {{")
        self._depth = 1
        self._put("(void)par;")
        self._do(self._chart.init_do)
        self._put(f"return Q_TRAN(&{self.handler(self._chart.init)});")
        self._end("}")
        for state in self._chart.states:
            self._put("")
            self._state(state)
        return [*self._lines, ""]

    def initial(self) -> str:
        """The name of what does the initial transition: that of no state."""
        name = f"{self.kind}_initial"
        while name in map(self.handler, self._chart.states):
            name += "_"
        return name

    def handler(self, state: State) -> str:
        """The name of a state's handler."""
        return f"{self.kind}_{state.name}"

    def _put(self, text: str) -> None:
        self._lines.append("    " * self._depth + text if text else "")

    def _begin(self, text: str) -> None:
        self._put(text)
        self._depth += 1

    def _end(self, text: str) -> None:
        self._depth -= 1
        self._put(text)

    def _type(self) -> None:
        self._begin("typedef struct {")
        self._put("QActive super;")
        for name in self._variables:
            self._put(f"int64_t v_{name};")
        for timer in self._chart.timers:
            self._put(f"QTimeEvt t_{timer.name};")
        if self.defers:
            self._put("QEQueue deferred;")
        if self.has_limit:
            self._put("bool hasDeferred;")
        if self._reads_ok:
            self._put("int64_t ok; /* the answer of the last call */")
        for name in self._subscribed:
            self._put(f"bool has_{name};")
        self._end(f"}} {self.kind};")
        self._put("")

    # Handlers.

    def _state(self, state: State) -> None:
        self._begin(f"static QState {self.handler(state)}({self.kind} * const me, QEvt const * const e) {{")
        self._put("QState status_;")
        self._begin("switch (e->sig) {")
        for label, texts in (("Q_ENTRY_SIG", state.entry), ("Q_EXIT_SIG", state.exit)):
            if texts:
                self._case(label)
                self._do(texts)
                self._leave("Q_HANDLED()")
        if state.init:
            self._case("Q_INIT_SIG")
            self._do(state.init_do)
            self._leave(f"Q_TRAN(&{self.handler(state.init)})")
        for signal in dict.fromkeys(row.on for row in state.rows):
            self._signal(state, signal)
        self._begin("default: {")
        self._leave(f"Q_SUPER(&{self.handler(state.parent) if state.parent else 'QHsm_top'})")
        self._end("}")
        self._put("return status_;")
        self._end("}")

    def _case(self, label: str) -> None:
        self._begin(f"case {label}: {{")

    def _leave(self, status: str) -> None:
        self._put(f"status_ = {status};")
        self._put("break;")
        self._end("}")

    def _signal(self, state: State, signal: Signal) -> None:
        rows = [(number, row) for number, row in enumerate(state.rows, 1) if row.on is signal]
        self._case(f"{signal.name}_SIG")
        if any(self._uses_event(row) for _, row in rows):
            self._put(f"{signal.name}_Evt const * const evt = Q_EVT_CAST({signal.name}_Evt);")
        is_first = True
        for number, row in rows:
            if row.when is not None:
                guard = guard_text(read_expression(row.when), self._variables)
                self._begin(f"{'if' if is_first else 'else if'} ({guard}) {{")
            elif not is_first:
                self._begin("else {")
            self._row(state, number, row)
            if row.when is not None or not is_first:
                self._end("}")
            is_first = False
        if rows[-1][1].when is not None:
            self._begin("else {")
            self._put("status_ = Q_UNHANDLED();")
            self._end("}")
        self._put("break;")
        self._end("}")

    def _row(self, state: State, number: int, row: Row) -> None:
        self._put(f"QPR_RUN({state.number}U, {number}U);")
        self._do(row.do)
        self._put(f"status_ = {f'Q_TRAN(&{self.handler(row.to)})' if row.to else 'Q_HANDLED()'};")

    def _uses_event(self, row: Row) -> bool:
        trees = [value for action in _plain(row.do) for value in action.values]
        trees += [] if row.when is None else [read_expression(row.when)]
        return any(name not in self._variables and name not in ("ok", "me") for tree in trees for name in names_in(tree))

    # Actions.

    def _do(self, texts: list[str]) -> None:
        for text in texts:
            self._action(read_action(text))

    def _action(self, action: Action) -> None:
        if action.word != "locked":
            self._plain_action(action)
            return
        self._begin(f"{{ /* locked {action.ceiling} */")
        self._put(f"QPC_LOCK({action.ceiling}U);")
        for inner in action.inner:
            self._plain_action(inner)
        self._put("QPC_UNLOCK();")
        self._end("}")

    def _plain_action(self, action: Action) -> None:
        values = [value_text(value, self._variables) for value in action.values]
        match action.word:
            case "set":
                self._put(f"me->v_{action.name} = {values[0]};")
            case "say":
                self._put(f"BSP_say(&me->super, {values[0]});")
            case "post" | "lifo" | "publish":
                self._event(action, values)
            case "forward" if action.margin is None:
                self._put(f"QACTIVE_POST({self._to(action)}, e, &me->super);")
                self._ok("1")
            case "forward":
                self._ok(f"QACTIVE_POST_X({self._to(action)}, e, {action.margin}U, &me->super)")
            case "defer":
                self._ok(f"{'me->hasDeferred && ' if self.has_limit else ''}QActive_defer(&me->super, &me->deferred, e)")
            case "recall":
                self._ok("QActive_recall(&me->super, &me->deferred)")
            case "flush":
                self._ok("(int64_t)QActive_flushDeferred(&me->super, &me->deferred, 255U)")
            case "subscribe" | "unsubscribe":
                self._subscribe(action)
            case "arm":
                self._put(f"QTimeEvt_armX(&me->t_{action.name}, qpc_ticks({values[0]}, 1), qpc_ticks({values[1]}, 0));")
                self._ok("1")
            case "rearm":
                self._ok(f"QTimeEvt_rearm(&me->t_{action.name}, qpc_ticks({values[0]}, 1))")
            case _:
                self._ok(f"QTimeEvt_disarm(&me->t_{action.name})")

    def _ok(self, value: str) -> None:
        """A call whose answer is kept where the chart reads it."""
        if self._reads_ok:
            self._put(f"me->ok = {value};")
        elif not value.isdigit():
            self._put(f"(void)({value});")

    def _to(self, action: Action) -> str:
        return "&me->super" if action.target == "me" else f"AO_{action.target}"

    def _subscribe(self, action: Action) -> None:
        """QP/C doesn't say whether there was something to change, so the object remembers it where its chart reads `ok`."""
        joins = action.word == "subscribe"
        if self._reads_ok:
            self._put(f"me->ok = {'!' if joins else ''}me->has_{action.name};")
            self._put(f"me->has_{action.name} = {str(joins).lower()};")
        self._put(f"QActive_{action.word}(&me->super, {action.name}_SIG);")

    def _event(self, action: Action, values: list[str]) -> None:
        signal = self._system.signals[action.name]
        if signal.is_static:
            self._send(action, f"&{signal.name}_evt")
            return
        kind = f"{signal.name}_Evt" if signal.params else "QEvt"
        self._begin("{")
        if action.reserve is None:
            self._put(f"{kind} * const new_ = Q_NEW({kind}, {signal.name}_SIG);")
        else:
            self._put(f"{kind} * const new_ = Q_NEW_X({kind}, {action.reserve}U, {signal.name}_SIG);")
            self._begin("if (new_ != NULL) {")
        for place, value in enumerate(values, 1):
            self._put(f"new_->p{place} = {value};")
        self._send(action, "&new_->super" if signal.params else "new_")
        if action.reserve is not None:
            self._end("}")
            if self._reads_ok:
                self._begin("else {")
                self._ok("0")
                self._end("}")
        self._end("}")

    def _send(self, action: Action, event: str) -> None:
        if action.margin is not None:
            self._ok(f"QACTIVE_POST_X({self._to(action)}, {event}, {action.margin}U, &me->super)")
            return
        calls = {"post": f"QACTIVE_POST({self._to(action)}, {event}, &me->super)", "lifo": f"QACTIVE_POST_LIFO(&me->super, {event})",
                 "publish": f"QACTIVE_PUBLISH({event}, &me->super)"}
        self._put(f"{calls[action.word]};")
        self._ok("1")
