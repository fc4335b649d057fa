"""The bytes of the tables' code, as the enum of `qp_board.h` has them, with the operands behind each."""

from typing import NamedTuple


class Operation(NamedTuple):
    """A byte of code: its number, its name behind `QPB_OP_`, and the names of the bytes behind it."""

    number: int
    name: str
    operands: tuple[str, ...] = ()


#: Numbers with a sign, by the bytes that they take, the least significant first.
WIDTHS = {"N1": 1, "N2": 2, "N4": 4, "N8": 8}
#: Bits of the operand `given`.
GIVEN_MARGIN, GIVEN_RESERVE = 1, 2
#: In the place of an object: the one that works.
ME = 255
FIRST_SIGNAL = 4

_BYTES = tuple(f"byte {n}" for n in range(8))
_ORDER: tuple[tuple[str, tuple[str, ...]], ...] = (
    ("END", ()),
    *((name, _BYTES[:width]) for name, width in WIDTHS.items()),
    ("VAR", ("variable",)), ("PAR", ("parameter",)), ("OK", ()), ("ME", ()), ("NEG", ()), ("NOT", ()),
    *((name, ()) for name in ("OR", "AND", "EQ", "NE", "LT", "LE", "GT", "GE", "ADD", "SUB", "MUL", "DIV", "MOD")),
    ("SET", ("variable",)), ("SAY", ()),
    ("POST", ("given", "object", "signal", "margin", "reserve")),
    ("LIFO", ("given", "signal", "reserve")),
    ("FORWARD", ("given", "object", "margin")),
    ("PUBLISH", ("given", "signal", "reserve")),
    ("DEFER", ()), ("RECALL", ()), ("FLUSH", ()),
    ("SUBSCRIBE", ("signal",)), ("UNSUBSCRIBE", ("signal",)),
    ("ARM", ("timer",)), ("REARM", ("timer",)), ("DISARM", ("timer",)),
    ("LOCK", ("ceiling",)), ("UNLOCK", ()),
)
OPERATIONS = tuple(Operation(number, name, operands) for number, (name, operands) in enumerate(_ORDER))
BY_NAME = {operation.name: operation for operation in OPERATIONS}
#: The operators of expressions between two values.
BINARY = {
    "||": "OR", "&&": "AND", "==": "EQ", "!=": "NE", "<": "LT", "<=": "LE", ">": "GT", ">=": "GE",
    "+": "ADD", "-": "SUB", "*": "MUL", "/": "DIV", "%": "MOD",
}
