"""Reads the text of printed tables: NAME.c as its declarations, NAME.h as its numbers. It knows no more of C than these two have."""

import re
from collections.abc import Iterator
from typing import NamedTuple

_TOKEN = re.compile(r'\s+|(/\*.*?\*/)|(#[^\n]*)|([A-Za-z_][A-Za-z0-9_]*)|([0-9]+)|([{}\[\](),;=&-])', re.S | re.ASCII)
_DEFINE = re.compile(r"#define (QPB_[A-Z0-9_]+)(?: (\S+))?$", re.M)
_USED = re.compile(r"#define QPB_USED \((.*?)\)$", re.M | re.S)
_ENUM = re.compile(r"enum \{ /\* [^*]* \*/\n(.*?)\};", re.S)
_MEMBER = re.compile(r"    ([A-Za-z_][A-Za-z0-9_]*) = ([0-9]+),(?: /\* [^*]* \*/)?\n", re.ASCII)

#: A number, a name (`&` before it, if it stands there), or a list of these.
Value = int | str | list["Value"]


class NotRead(Exception):
    """A text that isn't one of printed tables, with what is wrong."""


class Declaration(NamedTuple):
    """An array or a value: what it is made of, how long it is where that is stated, and what it holds where that is."""

    kind: str
    length: int | None
    value: Value | None


class Head(NamedTuple):
    """The numbers of NAME.h: what it defines, the operations that it says are used, and its enums."""

    defined: dict[str, str]
    used: set[str]
    enums: list[dict[str, int]]


def read_head(text: str) -> Head:
    defined = {name: value for name, value in _DEFINE.findall(text) if value != "("}
    used = _USED.search(text)
    if used is None:
        raise NotRead("NAME.h says no operations")
    members = re.split(r"[\s|\\]+", used[1].strip(" \\\n"))
    names = [word.removeprefix("QPB_OP_") for word in members if word.startswith("QPB_OP_")]
    if " ".join(members) != " ".join(f"UINT64_C(1) << QPB_OP_{name}" for name in names):
        raise NotRead("NAME.h's operations aren't a set of bits")
    enums = []
    for body in _ENUM.findall(text):
        if "".join(found[0] for found in re.finditer(_MEMBER, body)) != body:
            raise NotRead("an enum of NAME.h isn't a list of numbers")
        enums.append({name: int(value) for name, value in _MEMBER.findall(body)})
    return Head(defined, set(names), enums)


def read_body(text: str) -> dict[str, Declaration]:
    """The declarations of NAME.c by their names."""
    reader = _Reader(text)
    found: dict[str, Declaration] = {}
    while not reader.is_done():
        name, declaration = reader.declaration()
        if name in found:
            raise NotRead(f"{name} stands twice")
        found[name] = declaration
    return found


def _tokens(text: str) -> Iterator[str]:
    at = 0
    while at < len(text):
        token = _TOKEN.match(text, at)
        if token is None:
            raise NotRead(f"{text[at:at + 20]!r} isn't of a table")
        at = token.end()
        if token[3] or token[4] or token[5]:
            yield token[0]


class _Reader:
    """Reads declarations from the front of a text."""

    def __init__(self, text: str):
        self._tokens = list(_tokens(text))
        self._at = 0

    def is_done(self) -> bool:
        return self._at == len(self._tokens)

    def _next(self) -> str:
        return "" if self.is_done() else self._tokens[self._at]

    def _take(self, *wanted: str) -> str:
        token = self._next()
        if not token or wanted and token not in wanted:
            raise NotRead(f"{token or 'the end'} stands where {' or '.join(wanted) or 'more'} should")
        self._at += 1
        return token

    def _takes(self, token: str) -> bool:
        if self._next() != token:
            return False
        self._at += 1
        return True

    def declaration(self) -> tuple[str, Declaration]:
        words = []
        while re.match(r"[A-Za-z_]", self._next()):
            words.append(self._take())
        if len(words) < 2:
            raise NotRead(f"{self._next() or 'the end'} begins no declaration")
        length = self._length()
        value = self._value() if self._takes("=") else None
        self._take(";")
        return words[-1], Declaration(" ".join(words[:-1]), length, value)

    def _length(self) -> int | None:
        if not self._takes("["):
            return None
        length = int(self._take()) if self._next() != "]" else None
        self._take("]")
        return length

    def _value(self) -> Value:
        if self._takes("{"):
            members: list[Value] = []
            while not self._takes("}"):
                members.append(self._value())
                if self._next() != "}":
                    self._take(",")
            return members
        if self._takes("&"):
            return f"&{self._take()}"
        if self._takes("INT64_C"):
            self._take("(")
            value = self._value()
            self._take(")")
            return value
        if self._takes("-"):
            return -int(self._take())
        token = self._take()
        if token == "INT64_MIN":
            return -(2**63)
        return int(token) if token.isdigit() else token
