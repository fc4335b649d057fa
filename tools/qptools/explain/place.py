"""A place in a system's file, as `chart.1.state.2.row.1.do.3`, followed through the file's tree and said in names."""

from typing import Any, NamedTuple

#: How the members of a list are called, and the key that tells one from the others.
_MEMBERS = {
    "pool": "pool", "signal": "signal", "chart": "chart", "object": "object", "timer": "timer", "state": "state", "row": "row",
    "do": "action", "entry": "entry action", "exit": "exit action", "init_do": "initial action",
}
_KEYS = {"when": "guard", "to": "target", "on": "signal", "init": "init", "parent": "parent"}


class Place(NamedTuple):
    """A place in words, the tables on the way from the top, the last key, and what stands there (none where nothing does)."""

    words: str
    tables: list[tuple[str, dict[str, Any]]]
    key: str
    value: Any

    def table(self, kind: str) -> dict[str, Any]:
        """The table of a kind on the way; an empty one where there is none."""
        return next((table for of, table in self.tables if of == kind), {})

    @property
    def inner(self) -> str:
        """The kind of the innermost table."""
        return self.tables[-1][0]


def follow(tree: dict[str, Any], path: str) -> Place:
    """The place of a path; what isn't there ends the way."""
    words: list[str] = []
    at: Any = tree
    on_way: list[tuple[str, dict[str, Any]]] = [("top", tree)]
    key = ""
    for part in path.split(".") if path else []:
        if part.isdigit():
            at = at[int(part) - 1] if isinstance(at, list) and 0 < int(part) <= len(at) else None
            if isinstance(at, dict):
                on_way.append((key, at))
            words[-1] = _member(key, int(part), at)
        else:
            key = part
            at = at.get(part) if isinstance(at, dict) else None
            words.append(_KEYS.get(part, part))
    return Place(", ".join(words) or "the top of the file", on_way, key, at)


def _member(key: str, number: int, member: Any) -> str:
    name = _MEMBERS.get(key, key)
    if key == "row":
        signal = member.get("on") if isinstance(member, dict) else None
        return f"row {number} (on {signal})" if signal else f"row {number}"
    if isinstance(member, dict) and isinstance(member.get("name"), str):
        return f"{name} {member['name']}"
    return f"{name} {number}"
