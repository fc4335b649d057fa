"""Where the values of a TOML file stand: the line of each, by its path of keys and places from 1, as `chart.1.state.2.row.1.do.3`.

The file is one that Python's reader takes; what that reader refuses is looked at no further.
"""

import re
from bisect import bisect_right

_BLANK = re.compile(r"[ \t\r\n]+|#[^\n]*")
_BARE_KEY = re.compile(r"[A-Za-z0-9_-]+")
_SCALAR = re.compile(r"[^,\]}#\n]*")
_STRINGS = (
    ('"""', re.compile(r'"""(?:[^"\\]|\\.|"{1,2}(?!"))*"{3,5}', re.DOTALL)),
    ("'''", re.compile(r"'''.*?'{3,5}", re.DOTALL)),
    ('"', re.compile(r'"(?:[^"\\\n]|\\.)*"')),
    ("'", re.compile(r"'[^'\n]*'")),
)


def read_lines(data: bytes) -> "Lines":
    """The lines of a file's values; the file may begin with a byte order mark."""
    return Lines(data.decode("utf-8-sig", errors="replace"))


class Lines:
    """The line of each value and of each table of a text."""

    def __init__(self, text: str):
        self._found: dict[str, int] = {}
        _Scanner(text, self._found).document()

    def line_of(self, path: str) -> int:
        """The line of a value, or of the innermost table around it that is there; 1 for the top of the file."""
        while path and path not in self._found:
            path = path.rpartition(".")[0]
        return self._found.get(path, 1)


class _Scanner:
    """Goes over a text once, from its front to its end."""

    def __init__(self, text: str, found: dict[str, int]):
        self._text, self._at, self._found = text, 0, found
        self._starts = [0, *(match.end() for match in re.finditer("\n", text))]
        self._members: dict[str, int] = {}

    def document(self) -> None:
        base = ""
        while self._next():
            if self._takes("[["):
                base = self._header(True)
            elif self._takes("["):
                base = self._header(False)
            elif not self._pair(base):
                return

    def _next(self) -> str:
        """The next letter that isn't blank and in no comment."""
        while blank := _BLANK.match(self._text, self._at):
            self._at = blank.end()
        return self._text[self._at:self._at + 1]

    def _takes(self, token: str) -> bool:
        self._next()
        if not self._text.startswith(token, self._at):
            return False
        self._at += len(token)
        return True

    def _note(self, path: str, at: int) -> None:
        self._found.setdefault(path, bisect_right(self._starts, at))

    def _key(self) -> list[str]:
        """The parts of a key."""
        parts = []
        while True:
            letter = self._next()
            if letter in ('"', "'") and letter:
                parts.append(self._string()[1:-1])
            else:
                bare = _BARE_KEY.match(self._text, self._at)
                if not bare:
                    return parts
                parts.append(bare[0])
                self._at = bare.end()
            if not self._takes("."):
                return parts

    def _header(self, is_member: bool) -> str:
        """The path of the table whose header stands here."""
        at, path = self._at, ""
        *outer, last = self._key() or [""]
        for part in outer:
            path = self._within(path, part)
            if path in self._members:
                path = f"{path}.{self._members[path]}"
        path = self._within(path, last)
        self._note(path, at)
        if is_member:
            self._members[path] = self._members.get(path, 0) + 1
            path = f"{path}.{self._members[path]}"
            self._note(path, at)
        self._takes("]]" if is_member else "]")
        return path

    def _within(self, path: str, part: str) -> str:
        return f"{path}.{part}" if path else part

    def _pair(self, base: str) -> bool:
        """Reads a key with its value; says whether there was one."""
        self._next()
        at, path = self._at, base
        for part in self._key():
            path = self._within(path, part)
            self._note(path, at)
        if path == base or not self._takes("="):
            return False
        self._value(path)
        return True

    def _value(self, path: str) -> None:
        letter = self._next()
        self._note(path, self._at)
        if letter == "[":
            self._list(path)
        elif letter == "{":
            self._at += 1
            while not self._takes("}"):
                if not self._pair(path):
                    return
                self._takes(",")
        elif letter in ('"', "'") and letter:
            self._string()
        elif scalar := _SCALAR.match(self._text, self._at):
            self._at = scalar.end()

    def _list(self, path: str) -> None:
        self._at += 1
        number = 0
        while self._next() and not self._takes("]"):
            number += 1
            self._value(f"{path}.{number}")
            if not self._takes(",") and self._next() != "]":
                return

    def _string(self) -> str:
        for quotes, pattern in _STRINGS:
            if self._text.startswith(quotes, self._at) and (found := pattern.match(self._text, self._at)):
                self._at = found.end()
                return found[0]
        self._at += 1
        return ""
