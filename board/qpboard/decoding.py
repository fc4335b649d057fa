"""What bytes of code denote: actions and expressions, as the viewer's reader has them of their texts."""

from typing import NamedTuple

from qpviewer.actions import Action, Binary, Expr, Name, Number, Unary

from .numbers import BINARY, FIRST_SIGNAL, GIVEN_MARGIN, GIVEN_RESERVE, ME, OPERATIONS, WIDTHS
from .printed import NotRead, Value

_SYMBOLS = {name: symbol for symbol, name in BINARY.items()}
_PREFIX = "QPB_OP_"


class Known(NamedTuple):
    """The names that numbers of code stand for, and how many parameters each signal has by the tables."""

    objects: list[str]
    signals: list[str]
    params: list[int]
    variables: list[str]
    timers: list[str]


class Decoder:
    """The code of a chart. It keeps which bytes were read, the operations among them, and how deep the stack was."""

    def __init__(self, code: Value | None, known: Known):
        if not isinstance(code, list):
            raise NotRead("a chart has no code")
        self._code = code
        self._known = known
        self._at = 0
        self._stack: list[Expr] = []
        self.read = {0}
        self.used = {"END"}
        self.deepest = 1
        if self._operation(0) != "END":
            raise NotRead("place 0 isn't an end")

    def actions_at(self, place: int) -> list[Action]:
        """The actions of a list."""
        actions: list[Action] = []
        locked: Action | None = None
        self._begin(place)
        while (name := self._step()) != "END":
            if name == "LOCK":
                if locked:
                    raise NotRead("a lock within a lock")
                locked = Action("locked", "", ceiling=self._operands(name)["ceiling"])
                actions.append(locked)
            elif name == "UNLOCK":
                if not locked:
                    raise NotRead("an unlock without a lock")
                locked = None
            elif not self._is_expression(name):
                (locked.inner if locked else actions).append(self._action(name))
                if self._stack:
                    raise NotRead("an action leaves values")
        if self._stack or locked:
            raise NotRead("a list ends within an action")
        return actions

    def guard_at(self, place: int) -> Expr:
        """The expression of a guard."""
        self._begin(place)
        while (name := self._step()) != "END":
            if not self._is_expression(name):
                raise NotRead("an action stands in a guard")
        if len(self._stack) != 1:
            raise NotRead("a guard isn't one value")
        return self._stack.pop()

    def unread(self) -> list[int]:
        """The places that no list has."""
        return [place for place in range(len(self._code)) if place not in self.read]

    def _begin(self, place: int) -> None:
        if place == 0:
            raise NotRead("a list stands at place 0")
        self._at = place
        self._stack = []

    def _operation(self, place: int) -> str:
        byte = self._code[place] if place < len(self._code) else None
        if not isinstance(byte, str) or not byte.startswith(_PREFIX):
            raise NotRead(f"no operation stands at place {place}")
        return byte.removeprefix(_PREFIX)

    def _step(self) -> str:
        name = self._operation(self._at)
        self.read.add(self._at)
        self.used.add(name)
        self._at += 1
        return name

    def _operands(self, name: str) -> dict[str, int]:
        operation = next((one for one in OPERATIONS if one.name == name), None)
        if operation is None:
            raise NotRead(f"{name} is no operation")
        found = {}
        for operand in operation.operands:
            byte = self._code[self._at] if self._at < len(self._code) else None
            if not isinstance(byte, int) or not 0 <= byte <= 255:
                raise NotRead(f"no byte stands at place {self._at}")
            found[operand] = byte
            self.read.add(self._at)
            self._at += 1
        return found

    # Expressions.

    def _is_expression(self, name: str) -> bool:
        """Whether the operation is one of an expression, whose value is then on the stack."""
        if name in WIDTHS:
            data = bytes(self._operands(name).values())
            self._push(Number(int.from_bytes(data, "little", signed=True)))
        elif name == "VAR":
            self._push(Name(_of(self._known.variables, self._operands(name)["variable"], "variable")))
        elif name == "PAR":
            self._push(Name(f"p{self._operands(name)['parameter'] + 1}"))
        elif name in ("OK", "ME"):
            self._push(Name(name.lower()))
        elif name in ("NEG", "NOT"):
            self._push(Unary("-" if name == "NEG" else "!", self._pop()))
        elif name in _SYMBOLS:
            right = self._pop()
            self._push(Binary(_SYMBOLS[name], self._pop(), right))
        else:
            return False
        return True

    def _push(self, tree: Expr) -> None:
        self._stack.append(tree)
        self.deepest = max(self.deepest, len(self._stack))

    def _pop(self) -> Expr:
        if not self._stack:
            raise NotRead("a value is missing")
        return self._stack.pop()

    # Actions.

    def _action(self, name: str) -> Action:
        operands = self._operands(name)
        action = Action(name.lower(), "")
        for operand, byte in operands.items():
            match operand:
                case "variable":
                    action.name = _of(self._known.variables, byte, "variable")
                case "signal":
                    action.name = _of(self._known.signals, byte - FIRST_SIGNAL, "signal")
                case "timer":
                    action.name = _of(self._known.timers, byte, "time event")
                case "object":
                    action.target = "me" if byte == ME else _of(self._known.objects, byte, "object")
        action.margin = _given(operands, "margin", GIVEN_MARGIN)
        action.reserve = _given(operands, "reserve", GIVEN_RESERVE)
        action.values = [self._pop() for _ in range(self._values_of(name, operands))][::-1]
        return action

    def _values_of(self, name: str, operands: dict[str, int]) -> int:
        if name in ("POST", "LIFO", "PUBLISH"):
            return self._known.params[operands["signal"] - FIRST_SIGNAL]
        return {"SET": 1, "SAY": 1, "ARM": 2, "REARM": 1}.get(name, 0)


def _of(names: list[str], place: int, kind: str) -> str:
    if not 0 <= place < len(names):
        raise NotRead(f"there is no {kind} {place}")
    return names[place]


def _given(operands: dict[str, int], name: str, bit: int) -> int | None:
    """A margin or a reserve; where none is given its byte is 0, and what may not have one has no bit either."""
    given, value = operands.get("given", 0), operands.get(name, 0)
    is_given = bool(given & bit)
    if is_given and name not in operands or not is_given and value or given > GIVEN_MARGIN + GIVEN_RESERVE:
        raise NotRead(f"{name} isn't given as it has to be")
    return value if is_given else None
