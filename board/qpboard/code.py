"""Actions and guards of a chart as bytes of code."""

from collections.abc import Callable, Mapping
from typing import TypeVar

from qpviewer.actions import Action, Binary, Expr, Name, Number, Unary, read_action, read_expression
from qpviewer.faults import Fault
from qpviewer.system_parts import Chart, System

from .numbers import BINARY, BY_NAME, GIVEN_MARGIN, GIVEN_RESERVE, ME, WIDTHS

_LEAST, _MOST = -(2**63), 2**63 - 1
_Value = TypeVar("_Value")


class Code:
    """The bytes of a chart. Place 0 is an end, so that 0 says that there is no list."""

    def __init__(self, system: System, chart: Chart):
        self._system = system
        self._vars = {name: place for place, name in enumerate(chart.vars)}
        self._timers = {timer.name: place for place, timer in enumerate(chart.timers)}
        self._places = {owner.name: place for place, owner in enumerate(system.objects)}
        self._known: dict[tuple[str, ...], int] = {}
        self._depth = 0
        #: Lines of C, each with its comment; the bytes so far; the deepest stack; names of the operations used.
        self.lines: list[str] = []
        self.size = 0
        self.deepest = 1
        self.used: set[str] = set()
        self._emit("END")

    def list_at(self, texts: list[str]) -> int:
        """Where the code of a list begins; equal lists are there once. Raises `Fault` for a text that isn't an action here."""
        return self._place("do", texts, lambda text: self._action(read_action(text))) if texts else 0

    def guard_at(self, text: str | None) -> int:
        return 0 if text is None else self._place("when", [text], lambda text: self._value(read_expression(text)))

    def _place(self, kind: str, texts: list[str], write: Callable[[str], None]) -> int:
        key = (kind, *texts)
        if key not in self._known:
            self._known[key] = self.size
            self.lines.append(f"    /* {self.size}: {'when ' if kind == 'when' else ''}{'; '.join(texts)} */")
            self._depth = 0
            for text in texts:
                write(text)
            self._emit("END")
        return self._known[key]

    def _emit(self, name: str, *operands: int) -> None:
        self.lines.append(f"    {', '.join([f'QPB_OP_{name}', *map(str, operands)])},")
        self.size += 1 + len(operands)
        self.used.add(BY_NAME[name].name)

    def _push(self, by: int) -> None:
        self._depth += by
        self.deepest = max(self.deepest, self._depth)

    # Expressions.

    def _value(self, tree: Expr) -> None:
        match tree:
            case Number(value):
                self._number(value)
            case Unary("-", Number(value)):
                self._number(-value)
            case Name("ok" | "me" as name):
                self._emit(name.upper())
                self._push(1)
            case Name(name) if name in self._vars:
                self._emit("VAR", self._vars[name])
                self._push(1)
            case Name(name):
                self._emit("PAR", _parameter(name) - 1)
                self._push(1)
            case Unary(operator, operand):
                self._value(operand)
                self._emit("NEG" if operator == "-" else "NOT")
            case Binary(operator, left, right):
                self._value(left)
                self._value(right)
                self._emit(BINARY[operator])
                self._push(-1)

    def _number(self, value: int) -> None:
        if not _LEAST <= value <= _MOST:
            raise Fault("", f"{value} isn't a number of 64 bits")
        name, width = next((name, width) for name, width in WIDTHS.items() if -(1 << 8 * width - 1) <= value < 1 << 8 * width - 1)
        self._emit(name, *value.to_bytes(width, "little", signed=True))
        self._push(1)

    # Actions.

    def _action(self, action: Action) -> None:
        if action.word == "locked":
            self._emit("LOCK", action.ceiling)
            for inner in action.inner:
                self._action(inner)
            self._emit("UNLOCK")
            return
        for value in action.values:
            self._value(value)
        self._emit(action.word.upper(), *self._operands(action))
        self._depth = 0

    def _operands(self, action: Action) -> list[int]:
        given = GIVEN_MARGIN * (action.margin is not None) | GIVEN_RESERVE * (action.reserve is not None)
        margin, reserve = action.margin or 0, action.reserve or 0
        match action.word:
            case "set":
                return [_found(self._vars, action.name, "a variable")]
            case "post":
                return [given, self._object(action.target), self._signal(action), margin, reserve]
            case "lifo" | "publish":
                return [given, self._signal(action), reserve]
            case "forward":
                return [given, self._object(action.target), margin]
            case "subscribe" | "unsubscribe":
                return [self._signal(action)]
            case "arm" | "rearm" | "disarm":
                return [_found(self._timers, action.name, "a time event")]
        return []

    def _object(self, name: str) -> int:
        return ME if name == "me" else _found(self._places, name, "an object")

    def _signal(self, action: Action) -> int:
        signal = _found(self._system.signals, action.name, "a signal")
        if action.word in ("post", "lifo", "publish") and len(action.values) != signal.params:
            raise Fault("", f"{action.name} has {signal.params} parameters, not {len(action.values)}")
        return signal.number


def _parameter(name: str) -> int:
    if len(name) == 2 and name[0] == "p" and name[1] in "12345678":
        return int(name[1])
    raise Fault("", f"{name} isn't a variable")


def _found(known: Mapping[str, _Value], name: str, kind: str) -> _Value:
    if name not in known:
        raise Fault("", f"{name} isn't {kind}")
    return known[name]
