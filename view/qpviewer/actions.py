"""Reads actions and expressions of charts (docs/FORMATS.md, section 2) as trees, and the values of expressions.

It is the one place in Python where they are read: for the place of a verdict, for what a refusal means, and for C that is printed of
a chart. A text that isn't in the grammar is a `Fault`.
"""

import re
from collections import deque
from collections.abc import Callable, Iterator, Mapping
from dataclasses import dataclass, field

from .faults import Fault

_TOKEN = re.compile(r" *([0-9]+|[A-Za-z_][A-Za-z0-9_]*|\|\||&&|==|!=|<=|>=|[-+*/%<>!()\[\],;=])", re.ASCII)
_NUMBER = re.compile(r"[0-9]+", re.ASCII)
_BITS = 2**64
_HIGH = 2**63


@dataclass(frozen=True)
class Number:
    """A number as it is written, without a sign."""

    value: int


@dataclass(frozen=True)
class Name:
    """A variable, a parameter, `ok` or `me`."""

    name: str


@dataclass(frozen=True)
class Unary:
    """`-` or `!` before an expression."""

    operator: str
    operand: "Expr"


@dataclass(frozen=True)
class Binary:
    """An operator between two expressions."""

    operator: str
    left: "Expr"
    right: "Expr"


Expr = Number | Name | Unary | Binary


@dataclass
class Action:
    """An action: its word (`set` for an assignment), whom or what it names, its expressions, and its margin and reserve.

    `text` is the whole text's, also of an action within `locked`.
    """

    word: str
    text: str
    target: str = ""
    name: str = ""
    values: list[Expr] = field(default_factory=list)
    margin: int | None = None
    reserve: int | None = None
    inner: list["Action"] = field(default_factory=list)
    ceiling: int = 0


def wrapped(value: int) -> int:
    """A value in 64 bits with a sign."""
    return (value + _HIGH) % _BITS - _HIGH


def value_of(tree: Expr, names: Mapping[str, int]) -> int:
    """An expression's value where names have these. Raises `KeyError` for a name that isn't among them."""
    match tree:
        case Number(value):
            return value
        case Name(name):
            return names[name]
        case Unary("-", operand):
            return wrapped(-value_of(operand, names))
        case Unary(_, operand):
            return int(not value_of(operand, names))
        case Binary(operator, left, right):
            return wrapped(_OPERATIONS[operator](value_of(left, names), value_of(right, names)))


def names_in(tree: Expr) -> Iterator[str]:
    """The names of an expression from the left, each as often as it stands there."""
    match tree:
        case Name(name):
            yield name
        case Unary(_, operand):
            yield from names_in(operand)
        case Binary(_, left, right):
            yield from names_in(left)
            yield from names_in(right)


def read_action(text: str) -> Action:
    reader = _Reader(text)
    action = reader.action()
    reader.end()
    return action


def read_expression(text: str) -> Expr:
    reader = _Reader(text)
    expression = reader.expression()
    reader.end()
    return expression


class _Reader:
    """Reads a text's tokens from the front."""

    def __init__(self, text: str):
        self._text = text
        self._tokens: deque[str] = deque()
        at, end = 0, len(text.rstrip(" "))
        while at < end:
            token = _TOKEN.match(text, at)
            if not token:
                raise Fault("", f"{text!r} isn't an action or an expression")
            self._tokens.append(token[1])
            at = token.end()

    def _next(self) -> str:
        return self._tokens[0] if self._tokens else ""

    def _take(self, *wanted: str) -> str:
        token = self._next()
        if not token or wanted and token not in wanted:
            raise Fault("", f"{self._text!r} isn't an action or an expression")
        return self._tokens.popleft()

    def _takes(self, token: str) -> bool:
        if self._next() != token:
            return False
        self._tokens.popleft()
        return True

    def _number(self) -> int:
        token = self._take()
        if not _NUMBER.fullmatch(token):
            raise Fault("", f"{self._text!r} isn't an action or an expression")
        return int(token)

    def end(self) -> None:
        if self._tokens:
            raise Fault("", f"{self._text!r} isn't an action or an expression")

    # Actions.

    def action(self) -> Action:
        if not self._takes("locked"):
            return self._plain()
        action = Action("locked", self._text, ceiling=self._number())
        self._take("[")
        action.inner.append(self._plain())
        while self._takes(";"):
            action.inner.append(self._plain())
        self._take("]")
        return action

    def _plain(self) -> Action:
        word = self._take()
        action = Action(word, self._text)
        match word:
            case "say":
                action.values = [self.expression()]
            case "post" | "forward":
                action.target = self._take()
                if word == "post":
                    self._event(action)
            case "lifo" | "publish":
                self._event(action)
            case "defer" | "recall" | "flush":
                pass
            case "subscribe" | "unsubscribe" | "disarm":
                action.name = self._take()
            case "arm" | "rearm":
                action.name = self._take()
                self._values(action)
            case _:
                self._take("=")
                return Action("set", self._text, name=word, values=[self.expression()])
        if self._takes("margin"):
            action.margin = self._number()
        if self._takes("reserve"):
            action.reserve = self._number()
        return action

    def _event(self, action: Action) -> None:
        action.name = self._take()
        if self._next() == "(":
            self._values(action)

    def _values(self, action: Action) -> None:
        self._take("(")
        action.values.append(self.expression())
        while self._takes(","):
            action.values.append(self.expression())
        self._take(")")

    # Expressions: each line of the grammar binds closer than the one before.

    def expression(self) -> Expr:
        return self._line(0)

    def _line(self, level: int) -> Expr:
        if level == len(_LEVELS):
            return self._unary()
        left = self._line(level + 1)
        while self._next() in _LEVELS[level]:
            left = Binary(self._take(), left, self._line(level + 1))
            if level == _COMPARISONS:
                break
        return left

    def _unary(self) -> Expr:
        if self._next() in ("-", "!"):
            return Unary(self._take(), self._unary())
        if self._takes("("):
            inner = self.expression()
            self._take(")")
            return inner
        token = self._take()
        return Number(int(token)) if _NUMBER.fullmatch(token) else Name(token)


def _divided(left: int, right: int) -> int:
    """Towards zero; 0 where the divisor is 0."""
    if right == 0:
        return 0
    quotient = abs(left) // abs(right)
    return quotient if (left < 0) == (right < 0) else -quotient


_COMPARISONS = 2
_LEVELS: list[dict[str, Callable[[int, int], int]]] = [
    {"||": lambda a, b: int(bool(a) or bool(b))},
    {"&&": lambda a, b: int(bool(a) and bool(b))},
    {"==": lambda a, b: int(a == b), "!=": lambda a, b: int(a != b), "<": lambda a, b: int(a < b),
     "<=": lambda a, b: int(a <= b), ">": lambda a, b: int(a > b), ">=": lambda a, b: int(a >= b)},
    {"+": lambda a, b: a + b, "-": lambda a, b: a - b},
    {"*": lambda a, b: a * b, "/": _divided, "%": lambda a, b: 0 if b == 0 else a - b * _divided(a, b)},
]
_OPERATIONS = {token: operation for level in _LEVELS for token, operation in level.items()}
