"""Expressions of charts as C for QP/C: values of 64 bits that wrap, by the functions of `qpc_values.h`."""

from qpviewer.actions import Binary, Expr, Name, Number, Unary

from .tables import number_text

_COMPARED = ("==", "!=", "<", "<=", ">", ">=")
_CALLS = {"+": "qpc_add", "-": "qpc_sub", "*": "qpc_mul", "/": "qpc_div", "%": "qpc_mod"}


def guard_text(tree: Expr, variables: list[str]) -> str:
    """A guard as the condition of an `if`."""
    if isinstance(tree, Binary) and tree.operator in _COMPARED:
        return f"{value_text(tree.left, variables)} {tree.operator} {value_text(tree.right, variables)}"
    return value_text(tree, variables)


def value_text(tree: Expr, variables: list[str]) -> str:
    """An expression in a handler: `me` is the object, `evt` the event with parameters."""
    match tree:
        case Number(value):
            return number_text(value)
        case Unary("-", Number(value)):
            return f"({number_text(-value)})"
        case Name("ok"):
            return "me->ok"
        case Name("me"):
            return "(int64_t)me->super.prio"
        case Name(name):
            return f"me->v_{name}" if name in variables else f"evt->{name}"
        case Unary("-", operand):
            return f"qpc_sub(0, {value_text(operand, variables)})"
        case Unary(_, operand):
            return f"(int64_t)!({value_text(operand, variables)})"
        case Binary(operator, left, right):
            both = value_text(left, variables), value_text(right, variables)
            if operator in _CALLS:
                return f"{_CALLS[operator]}({both[0]}, {both[1]})"
            if operator in _COMPARED:
                return f"({both[0]} {operator} {both[1]})"
            return f"(({both[0]}) {operator} ({both[1]}))"
