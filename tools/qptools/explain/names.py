"""The names of a system's file, and those that the text of an action or a guard uses."""

import re
from difflib import get_close_matches
from typing import Any, NamedTuple

from qpviewer.actions import Action, names_in, read_action, read_expression

_PARAMETER = re.compile(r"p[1-8]", re.ASCII)
#: What kind of thing an action's own name is, by its word.
_KINDS = {
    "post": "signal", "lifo": "signal", "publish": "signal", "subscribe": "signal", "unsubscribe": "signal", "arm": "timer",
    "rearm": "timer", "disarm": "timer", "set": "variable",
}
#: Names that an expression has without a declaration, beside its parameters.
_GIVEN = {"ok", "me"}


class Used(NamedTuple):
    """A name that a text uses, and what it must be: `object`, `signal`, `timer` or `variable`."""

    kind: str
    name: str


def tables(tree: Any, key: str) -> list[dict[str, Any]]:
    """The tables of a list, as far as they are tables."""
    members = tree.get(key, []) if isinstance(tree, dict) else []
    return [member for member in members if isinstance(member, dict)] if isinstance(members, list) else []


def names_of(tree: Any, key: str) -> list[str]:
    """The names of a list of tables."""
    return [str(member["name"]) for member in tables(tree, key) if "name" in member]


def declared(tree: dict[str, Any], chart: dict[str, Any], kind: str) -> list[str]:
    """What of a kind a chart's texts may name."""
    if kind == "variable":
        known = chart.get("vars", {})
        return list(known) if isinstance(known, dict) else []
    return names_of(chart, "timer") if kind == "timer" else names_of(tree, kind)


def actions_in(text: str) -> list[Action]:
    """The actions of a text: itself, or those within `locked`. Raises `Fault` where it is none."""
    action = read_action(text)
    return action.inner or [action]


def asked_in(text: str, is_guard: bool) -> list[str]:
    """The names in the expressions of an action or a guard, each once. Raises `Fault` where the text is none."""
    values = [read_expression(text)] if is_guard else [value for action in actions_in(text) for value in action.values]
    return list(dict.fromkeys(name for value in values for name in names_in(value)))


def used_in(text: str, is_guard: bool) -> list[Used]:
    """The names that an action or a guard uses and that must be declared. Raises `Fault` where the text is none."""
    found = []
    if not is_guard:
        for action in actions_in(text):
            found += [Used("object", action.target)] if action.target not in ("", "me") else []
            found += [Used(_KINDS[action.word], action.name)] if action.name else []
    names = asked_in(text, is_guard)
    return found + [Used("variable", name) for name in names if name not in _GIVEN and not _PARAMETER.fullmatch(name)]


def parameters_in(text: str, is_guard: bool) -> list[int]:
    """The numbers of the parameters that a text uses: 2 for `p2`. Raises `Fault` where the text is none."""
    return [int(name[1]) for name in asked_in(text, is_guard) if _PARAMETER.fullmatch(name)]


def like(name: str, others: list[str]) -> str:
    """A name among others that was meant, as `, as in AlarmClock`; nothing where none is near."""
    folded = {other.lower(): other for other in others}
    near = get_close_matches(name.lower(), list(folded), 1, 0.6)
    return folded[near[0]] if near and folded[near[0]] != name else ""


def listed(names: list[str]) -> str:
    """Names as a list of words."""
    return ", ".join(f"`{name}`" for name in names)


def count_words(number: Any) -> str:
    """So many parameters, in words."""
    return "1 parameter" if number == 1 else f"{number or 'no'} parameters"
