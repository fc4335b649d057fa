"""The words of the program and of its launcher, read off the help's page, `tools/help.txt`."""

import re
from dataclasses import dataclass, field
from functools import cache
from itertools import takewhile

from ..program import TOP

#: Where the page has them: the program's own words, those of the tools, and those that the launcher answers.
_OF_PROGRAM, _OF_TOOLS, _OF_LAUNCHER = "The program", "Tools", "The launcher"
_MOST = re.compile(r"\b1 to ([0-9]+)\b")


@dataclass(frozen=True)
class Value:
    """What an option or an operand may be: one of some words, or a number from 1 to the most."""

    words: tuple[str, ...] = ()
    most: int = 0

    def has(self, word: str) -> bool:
        if self.words:
            return word in self.words
        return bool(re.fullmatch("[1-9][0-9]{0,8}", word, re.ASCII)) and int(word) <= self.most

    def told(self) -> str:
        return f"{', '.join(self.words[:-1])} or {self.words[-1]}" if self.words else f"a number, 1 to {self.most}"


@dataclass
class Command:
    """A command of the program: the names of its files, its options, and what its number may be, if it has one."""

    files: tuple[str, ...]
    number: Value | None = None
    options: dict[str, Value] = field(default_factory=dict)


def _value(word: str, line: str) -> Value:
    most = _MOST.search(line)
    return Value(most=int(most[1])) if word == "N" and most else Value(tuple(word.split("|")))


def _sections() -> dict[str, list[str]]:
    """The lines of words below each heading of the page."""
    found: dict[str, list[str]] = {}
    heading = ""
    for line in (TOP / "tools" / "help.txt").read_text().splitlines():
        heading = line if line[:1].isupper() else heading
        if re.match(r" {2}[a-z-]| {4}--", line):
            found.setdefault(heading, []).append(line)
    return found


def _below(start: str) -> list[str]:
    return next(lines for heading, lines in _sections().items() if heading.startswith(start))


@cache
def commands() -> dict[str, Command]:
    """The program's commands."""
    found: dict[str, Command] = {}
    for line in _below(_OF_PROGRAM):
        name, *parts = line.split()
        if name.startswith("--"):
            last = next(reversed(found.values()))
            last.options[name] = _value(parts[0], line)
        else:
            files = tuple(takewhile(str.isupper, parts))
            found[name] = Command(files, _value("N", line) if files == ("N",) else None)
    return found


@cache
def other_words() -> tuple[str, ...]:
    """The words in front of the tools, and those that the launcher answers by itself."""
    tools = [line.split()[0] for line in _below(_OF_TOOLS)]
    own = [word for line in _below(_OF_LAUNCHER) for word in re.findall(r"(?:^|, )(-*[a-z]+)", line.strip().partition("   ")[0])]
    return tuple(tools + own)
