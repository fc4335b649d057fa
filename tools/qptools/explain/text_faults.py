"""Faults of the texts and names within a chart: what isn't declared, isn't an action, or has another number of parameters."""

import re
from typing import Any

from .forms import form_of
from .habits import habit_in_text
from .names import actions_in, count_words, declared, like, listed, names_of, parameters_in, tables, used_in
from .place import Place


#: A text has at most so many bytes; longer ones aren't read, since their expressions may be deeper than Python reads.
_LONGEST = 200


#: Names of QP's that stand for no signal and no state here, and what has their place.
_OF_QP = {
    "signal": {"ENTRY": "what a state does on entry stands in its `entry`", "EXIT": "what a state does on exit stands in its `exit`",
               "INIT": "a state's initial transition is its `init`, with its actions in `init_do`"},
    "state": {"TOP": "a state at the top has no `parent`"},
}


def _of_qp(name: str, kind: str) -> str:
    """What stands here for `Q_ENTRY_SIG`, `QHsm_top` and their like; nothing for another name."""
    inner = re.fullmatch(r"(?:Q_|QHsm_|QMsm_)?(\w+?)(?:_SIG)?", name)
    return _OF_QP.get(kind, {}).get(inner[1].upper(), "") if inner else ""


def _too_long(text: str) -> list[str]:
    """Says that a text is too long; nothing where it isn't."""
    size = len(text.encode(errors="replace"))
    return [f"a text has at most {_LONGEST} bytes, this one {size}"] if size > _LONGEST else []


def undeclared(tree: dict[str, Any], place: Place) -> list[str]:
    """Code 7: the name that isn't declared, and what may be meant."""
    chart = place.table("chart")
    if place.key in ("do", "entry", "exit", "init_do", "when") and isinstance(place.value, str):
        if place.value == "else":
            return ["else isn't declared", habit_in_text(place.value, True)]
        if long := _too_long(place.value):
            return ["a name isn't declared", *long]
        for used in used_in(place.value, place.key == "when"):
            known = declared(tree, chart, used.kind)
            if used.name not in known:
                if used.name.lower() in ("true", "false"):
                    return [f"{used.name} isn't declared", "write 1 for true and 0 for false"]
                return [f"{used.name} isn't declared", *_meant(used.name, used.kind, known, tree, chart)]
        return ["a name isn't declared"]
    kind = {"on": "signal", "signal": "signal", "chart": "chart", "vars": "variable"}.get(place.key, "state")
    if kind == "variable":
        known = declared(tree, _chart_of(tree, place.table("object")), kind)
        odd = [name for name in place.value if name not in known] if isinstance(place.value, dict) else []
        return [f"{listed(odd)} isn't a variable of the object's chart"]
    known = names_of(tree if kind in ("signal", "chart") else chart, kind)
    return [f"{place.value} isn't declared", *_meant(str(place.value), kind, known, tree, chart)]


def _chart_of(tree: dict[str, Any], owner: dict[str, Any]) -> dict[str, Any]:
    return next((chart for chart in tables(tree, "chart") if chart.get("name") == owner.get("chart")), {})


def _meant(name: str, kind: str, known: list[str], tree: dict[str, Any], chart: dict[str, Any]) -> list[str]:
    if instead := _of_qp(name, kind):
        return [instead]
    if near := like(name, known):
        return [f"did you mean {near}? Names keep their case"]
    for other in ("signal", "object", "timer", "variable"):
        if other != kind and name in declared(tree, chart, other):
            return [f"{name} is a {other}; here a {kind} must stand"]
    article = "an" if kind == "object" else "a"
    those = f": {', '.join(known[:8])}{' ..' if len(known) > 8 else ''}" if known else ", and there is none"
    return [f"it must be {article} {kind}{those}"]


def no_text(tree: dict[str, Any], place: Place) -> list[str]:
    """Code 8: what to write in the place of a text."""
    text = str(place.value)
    what = "an expression" if place.key == "when" else "an action"
    return [f"isn't {what}", habit_in_text(text, place.key == "when") or form_of(text, place.key == "when"), *_too_long(text)]


def parameters(tree: dict[str, Any], place: Place) -> list[str]:
    """Code 9: how many parameters there are and should be."""
    text = str(place.value)
    signals = {str(signal.get("name")): int(signal.get("params", 0)) for signal in tables(tree, "signal")}
    is_guard = place.key == "when"
    if long := _too_long(text):
        return ["the text needs another number of parameters than there is", *long]
    for action in [] if is_guard else actions_in(text):
        if action.word in ("post", "lifo", "publish") and len(action.values) != signals.get(action.name, -1):
            return _wrong_count(action.name, signals.get(action.name, 0), len(action.values))
    row = place.table("row")
    if not row:
        return ["p1 to p8, `forward` and `defer` stand for the event of a step, so only a row has them"]
    most = signals.get(str(row.get("on")), 0)
    beyond = [f"p{number}" for number in parameters_in(text, is_guard) if number > int(most)]
    if beyond:
        mend = f"use p1 to p{most}" if int(most) > 1 else "use p1" if most else "use variables and numbers"
        return [f"{beyond[0]} isn't there: {row.get('on')} has {count_words(most)}", f"{mend}, or raise `params` of {row.get('on')}"]
    return ["an event has another number of parameters than its signal"]


def _wrong_count(signal: str, wanted: int, given: int) -> list[str]:
    example = f"{signal}({', '.join(['0'] * wanted)})" if wanted else f"{signal} alone"
    return [f"{signal} has {count_words(wanted)}, and {given} {'stands' if given == 1 else 'stand'} here", f"write {example}"]
