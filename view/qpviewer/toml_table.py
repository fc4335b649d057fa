"""A table of a TOML file, asked key by key, with a `Fault` at the key where it isn't as it should be."""

import re
from collections.abc import Container
from typing import Any

from .faults import Fault

NAME = re.compile(r"[A-Za-z_][A-Za-z0-9_]{0,23}", re.ASCII)
RESERVED = {"me", "ok", "margin", "reserve", "say", "post", "lifo", "forward", "publish", "defer", "recall", "flush",
             "subscribe", "unsubscribe", "arm", "rearm", "disarm", "locked", *(f"p{k}" for k in range(1, 9))}
_NEEDED = object()


class Table:
    """A table at a path of keys and places from 1, as `chart.1.state.2`."""

    def __init__(self, tree: Any, path: str, keys: set[str]):
        self._tree, self._path = tree, path
        if not isinstance(tree, dict):
            raise Fault(path, "isn't a table")
        for key in tree:
            if key not in keys:
                raise Fault(path or "top", f"has the unknown key {key!r}")

    def fault(self, key: str, words: str) -> Fault:
        return Fault(f"{self._path}.{key}" if self._path else key, words)

    def _value(self, key: str, default: Any, kind: type, words: str) -> Any:
        if key not in self._tree:
            if default is _NEEDED:
                raise self.fault(key, "is missing")
            return default
        value = self._tree[key]
        if type(value) is not kind:
            raise self.fault(key, f"isn't {words}")
        return value

    def integer(self, key: str, least: int, most: int, default: Any = _NEEDED) -> int:
        value = self._value(key, default, int, "an integer")
        if not least <= value <= most:
            raise self.fault(key, f"isn't {least}" if least == most else f"isn't between {least} and {most}")
        return value

    def boolean(self, key: str) -> bool:
        return self._value(key, False, bool, "true or false")

    def tables(self, key: str, keys: set[str], least: int, most: int) -> list["Table"]:
        """The tables of a list, with the keys that each may have."""
        members = self._value(key, [], list, "a list")
        if not least <= len(members) <= most:
            raise self.fault(key, f"has {len(members)} members, not {least} to {most}")
        path = f"{self._path}.{key}" if self._path else key
        return [Table(member, f"{path}.{place}", keys) for place, member in enumerate(members, 1)]

    def text_or_none(self, key: str) -> str | None:
        return self._value(key, None, str, "a text")

    def texts(self, key: str) -> list[str]:
        texts = self._value(key, [], list, "a list of texts")
        if len(texts) > 16 or not all(isinstance(text, str) for text in texts):
            raise self.fault(key, "isn't a list of at most 16 texts")
        return texts

    def numbers(self, key: str) -> dict[str, int]:
        """Names with values, in ascending name."""
        values = self._value(key, {}, dict, "a table of numbers")
        if len(values) > 16 or not all(type(value) is int for value in values.values()):
            raise self.fault(key, "isn't a table of at most 16 numbers")
        return dict(sorted(values.items()))

    def name(self, key: str) -> str:
        name = self._value(key, _NEEDED, str, "a name")
        if not NAME.fullmatch(name) or name in RESERVED:
            raise self.fault(key, f"{name!r} isn't a name")
        return name

    def new_name(self, key: str, others: Container[str]) -> str:
        name = self.name(key)
        if name in others:
            raise self.fault(key, f"{name!r} stands twice")
        return name

    def known(self, key: str, names: Container[str]) -> str:
        name = self.name(key)
        if name not in names:
            raise self.fault(key, f"{name!r} isn't declared")
        return name

    def known_or_none(self, key: str, things: dict[str, Any]) -> Any:
        return things[self.known(key, things)] if key in self._tree else None
