"""A fault of a system's file in words: its code, its place, and what stands there."""

from typing import Any

from qpviewer.faults import Fault
from qpviewer.positions import Lines, read_lines
from qpviewer.system import KEYS, read_tree
from qpviewer.toml_table import NAME, RESERVED

from .names import count_words, like, listed, tables
from .place import Place, follow
from .text_faults import no_text, parameters, undeclared
from .toml_faults import not_toml

#: What a value must be, by its key.
_KINDS = {
    "qp": "the whole number 1",
    "name": "a text in quotes",
    "params": "a whole number",
    "static": "true or false",
    "vars": "a table of names with whole numbers",
    "entry": 'a list of texts, as ["recall"]',
    "exit": 'a list of texts, as ["recall"]',
    "do": 'a list of texts, as ["say 1"]',
    "init_do": 'a list of texts, as ["arm T(1, 0)"]',
    "to": "the name of one state in quotes",
    "on": "the name of a signal in quotes",
    "when": "an expression in quotes",
    "init": "the name of a state in quotes",
    "parent": "the name of a state in quotes",
    "chart": "the name of a chart in quotes",
    "signal": "the name of a signal in quotes",
}
#: The code of a key that a table doesn't have.
_UNKNOWN = 4
#: So many keys are told that their table doesn't have.
_SHOWN = 3
#: How deep the program's reader of TOML goes.
_DEEPEST = 80
_LISTS = {"pool", "timer", "state", "row", "object"}
#: The headers of tables that stand within others.
_HEADERS = {"timer": "chart.timer", "state": "chart.state", "row": "chart.state.row"}
#: The range of a number, by its table and key.
_RANGES = {
    ("top", "qp"): "must be 1",
    ("pool", "size"): "must be 0 to 8, larger from pool to pool",
    ("pool", "blocks"): "must be 1 to 32",
    ("signal", "params"): "must be 0 to 8",
    ("timer", "rate"): "must be 0 to 3",
    ("object", "priority"): "must be 1 to 32",
    ("object", "threshold"): "must be 1 to 32, and not below the priority",
    ("object", "queue"): "must be 0 to 255",
    ("object", "defer"): "must be 0 to 255",
}
#: What to write in the place of a number that is out of range.
_ADVICE = {
    "blocks": "write `blocks = 32` at most",
    "priority": "use priorities 1 to 32, the highest is the most urgent",
    "rate": "a rate is the number of a clock and no period: `arm T(10, 10)` counts ten of its ticks",
    "queue": "a ring has at most 255 places, and the front one more",
    "defer": "a deferred list holds at most 255 events",
    "params": "an event has at most 8 parameters: split it into two signals",
    "size": "write the pools with ascending sizes, each once",
    "qp": "the form of the file is 1: write `qp = 1`",
    "threshold": "leave `threshold` out, and it is the priority",
}
_LENGTHS = {
    "pool": "0 to 15 pools",
    "signal": "0 to 200 signals",
    "chart": "1 to 32 charts",
    "object": "1 to 32 objects",
    "timer": "0 to 8 timers",
    "state": "1 to 64 states",
    "row": "0 to 32 rows",
    "vars": "0 to 16 variables",
    "do": "0 to 16 actions",
    "entry": "0 to 16 actions",
    "exit": "0 to 16 actions",
    "init_do": "0 to 16 actions",
}


def explain_system(name: str, data: bytes, code: int, path: str) -> list[str]:
    """The lines that explain a fault of a system's file; the first one begins with the file and the line."""
    try:
        tree = read_tree(data)
    except Fault as fault:
        return not_toml(name, data, str(fault))
    lines = read_lines(data)
    if code == 1:
        return _beyond(name, tree, lines)
    place = follow(tree, path)
    said = _SAYS[code](tree, place) if code in _SAYS else [f"code {code}"]
    return [f"{name}:{lines.line_of(_exact(place, code, path))}: {place.words}: {said[0]}", *_shown(place), *said[1:]]


def _exact(place: Place, code: int, path: str) -> str:
    """The path of what is wrong: of an unknown key, not of its table; of a name or a number of a table, not of the table."""
    if code == _UNKNOWN:
        odd = _unknown_in(place)
    elif isinstance(place.value, dict):
        odd = [key for key, value in place.value.items() if isinstance(value, float) or not NAME.fullmatch(key)]
    else:
        odd = []
    return ".".join(filter(None, [path, *odd[:1]]))


def _beyond(name: str, tree: dict[str, Any], lines: Lines) -> list[str]:
    """What Python's reader takes and the program's doesn't: a whole number beyond 64 bits, or what lies too deep."""
    said, at = "isn't TOML, though Python's reader takes it", ""
    left: list[tuple[str, str, Any, int]] = [("", "", tree, 0)]
    while left:
        path, key, value, depth = left.pop()
        if depth > _DEEPEST:
            said, at = f"isn't TOML: lists, tables and names of a dotted key stand at most {_DEEPEST} deep", path
            break
        if isinstance(value, int) and not -2**63 <= value < 2**63:
            said, at = f"isn't TOML: {key} is beyond 64 bits with a sign", path
            break
        if isinstance(value, dict):
            left += [(f"{path}.{inner}" if path else inner, inner, member, depth + 1) for inner, member in value.items()]
        elif isinstance(value, list):
            left += [(f"{path}.{place}", key, member, depth + 1) for place, member in enumerate(value, 1)]
    return [f"{name}:{lines.line_of(at)}: {said}"]


def _shown(place: Place) -> list[str]:
    """What stands at the place."""
    value = place.value
    if isinstance(value, dict):
        return [f"| keys: {', '.join(value)}"]
    if value is None or isinstance(value, list) and value and isinstance(value[0], dict):
        return []
    text = f'"{value}"' if isinstance(value, str) else str(value).lower() if isinstance(value, bool) else str(value)
    if isinstance(value, list):
        text = f"[{', '.join(repr(member) for member in value)}]".replace("'", '"')
    return [f"| {text}"]


def _wrong_kind(tree: dict[str, Any], place: Place) -> list[str]:
    if place.key == "to" and isinstance(place.value, list):
        return ["a row has one target, not a list",
                "for a choice write a row for each target, with guards, and one without a guard last"]
    if place.key in ("entry", "exit", "do", "init_do") and isinstance(place.value, str):
        return ["actions are a list of texts, not one text", f'write {place.key} = ["{place.value}"]']
    if odd := _floats(place.value, place.key):
        return [f"{odd[0]} isn't a whole number", "count in a smaller unit, as tenths"]
    if place.key in _LISTS and not isinstance(place.value, str):
        header = _HEADERS.get(place.key, place.key)
        if isinstance(place.value, dict) and (inner := [key for key in place.value if key in _HEADERS]):
            return [f"there is a [[{_HEADERS[inner[0]]}]] and no [[{header}]] above it", f"write it below the [[{header}]] that it belongs to"]
        return [f"must be tables, each begun by [[{header}]]"]
    return [f"must be {_KINDS.get(place.key, 'a whole number')}"]


def _floats(value: Any, key: str) -> list[str]:
    """The numbers of a value, or of a table, that aren't whole, each behind its key."""
    members = value if isinstance(value, dict) else {key: value}
    return [f"{name} = {member}" for name, member in members.items() if isinstance(member, float)]


def _missing(tree: dict[str, Any], place: Place) -> list[str]:
    if place.key == "init" and place.inner == "state":
        return ["is missing: `init_do` is what the state's initial transition does, so it needs `init`"]
    return ["is missing, and has no default"]


def _as_header(key: str) -> str:
    """How a list of tables is headed; nothing for another key."""
    return f"; as a header it is [[{_HEADERS[key]}]]" if key in _HEADERS else ""


def _unknown_in(place: Place) -> list[str]:
    """The keys of the innermost table that it doesn't have."""
    known = KEYS.get(place.inner, set())
    return [key for key in place.tables[-1][1] if key not in known]


def _unknown_key(tree: dict[str, Any], place: Place) -> list[str]:
    known = KEYS.get(place.inner, set())
    odd = _unknown_in(place)
    more = f" and {len(odd) - _SHOWN} more" if len(odd) > _SHOWN else ""
    told = [f"{listed(odd[:_SHOWN])}{more} {'is no key' if len(odd) == 1 else 'are no keys'} of this table"]
    for key in odd[:_SHOWN]:
        owners = sorted(kind for kind, keys in KEYS.items() if key in keys)
        if near := like(key, sorted(known)):
            told.append(f"did you mean `{near}`?")
        elif owners:
            told.append(
                f"`{key}` belongs to {' or '.join(owners)}: a key stands in the table whose header is above it, "
                f"so write it before the first header within{_as_header(key)}"
            )
        else:
            owner = {"top": "the top of the file", "object": "an object"}.get(place.inner, f"a {place.inner}")
            told.append(f"{owner} has the keys {', '.join(sorted(known))}" if known else "")
    return [line for line in dict.fromkeys(told) if line]


def _out_of_range(tree: dict[str, Any], place: Place) -> list[str]:
    value, key, inner = place.value, place.key, place.inner
    if key == "static":
        return ["a static signal has no parameters, since its event lies in no pool", "leave `static` or `params` out"]
    if inner == "timer" and key == "signal":
        params = next((signal.get("params", 0) for signal in tables(tree, "signal") if signal.get("name") == value), 0)
        if params:
            return [f"the signal of a timer must be static, and {value} has {count_words(params)}",
                    "a timer posts an event without parameters: declare a signal of its own for it, with `static = true`"]
        return ["the signal of a timer must be static", "write `static = true` in that signal's table"]
    if isinstance(value, str):
        return _bad_name(value, key) if key not in ("do", "entry", "exit", "init_do", "when") else _text_range(value)
    if isinstance(value, dict):
        wrong = [name for name in value if not NAME.fullmatch(name) or name in RESERVED]
        return _bad_name(wrong[0], "name") if wrong else ["a value is out of range: 64 bits, signed"]
    return [_RANGES.get((inner, key), "is out of range"), *([_ADVICE[key]] if key in _ADVICE else [])]


def _text_range(text: str) -> list[str]:
    if len(text.encode()) > 200:
        return [f"a text has at most 200 bytes, this one {len(text.encode())}"]
    if "reserve" in text:
        return ["`reserve` is 0 to 255, and only for signals that aren't static"]
    return ["a number is out of range: `margin` and `reserve` 0 to 255, the ceiling of `locked` 1 to 32"]


def _bad_name(name: str, key: str) -> list[str]:
    if key == "init" and name.startswith(("H", "h")) and not NAME.fullmatch(name):
        return ["isn't a name", "there is no history: keep the last state in a variable, and choose by guards"]
    if name in RESERVED:
        return [f"{name!r} is a word of actions and can't be a name"]
    if len(name) > 24:
        return [f"a name has at most 24 letters, this one {len(name)}", f"shorten it everywhere, as to {name[:24]}"]
    return ["isn't a name: a letter or `_`, then letters, digits and `_`"]


def _double(tree: dict[str, Any], place: Place) -> list[str]:
    if place.key == "priority":
        return ["another object has this priority", "each object has a priority of its own"]
    return ["this name stands twice among the things of its kind"]


def _length(tree: dict[str, Any], place: Place) -> list[str]:
    if place.key == "object" and not place.value:
        return ["a system has 1 to 32 objects"]
    if place.key in _LENGTHS:
        return [f"may have {_LENGTHS[place.key]}"]
    return ["there are more than 64 time events in all"]


def _no_pool(tree: dict[str, Any], place: Place) -> list[str]:
    params = place.table("signal").get("params", 0)
    sizes = [pool.get("size") for pool in tables(tree, "pool")]
    have = f"the pools have the sizes {', '.join(map(str, sizes))}" if sizes else "there is no pool"
    return [f"its events need a pool of blocks with room for {count_words(params)}, and {have}",
            f"add [[pool]] with size = {params} and blocks = 4, or write `static = true` where it has no parameters"]


_SAYS = {
    2: _wrong_kind, 3: _missing, 4: _unknown_key, 5: _out_of_range, 6: _double, 7: undeclared, 8: no_text, 9: parameters,
    10: lambda tree, place: ["the state lies within itself: going up by `parent` comes back to it"],
    11: lambda tree, place: ["the state lies more than six deep", "a path from the top has at most 6 states"],
    12: lambda tree, place: [f"{place.value} isn't within this state",
                             "`init` names a state whose `parent` is this one, or one further in"],
    13: lambda tree, place: ["an earlier row of this state takes this signal without a guard, so this one is never asked",
                             "put rows with guards first, and the one without last"],
    14: _length, 15: _no_pool,
}
