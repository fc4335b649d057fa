"""The words that the benches take, and how they end."""

import sys
from collections.abc import Callable, Sequence
from pathlib import Path
from typing import NamedTuple

from .calls import Missing, Programs, Wrong, program
from .figures import Figures

#: How often each call is made; the least counts.
TRIES = 5


class Asked(NamedTuple):
    """What a call of a bench asks for: the programs, how many tries, what size, and which names, all if none is named."""

    programs: Programs
    tries: int
    size: int
    names: list[str]


class Unread(Exception):
    """Words that a bench doesn't have."""


class Words(NamedTuple):
    """The words of a call: two programs, the first of which is the one that answers here if it is left out; tries, size and names."""

    now: Path | None
    before: Path | None
    tries: int
    size: int
    names: list[str]

    def programs(self) -> Programs:
        """The programs. Raises `Missing` where one isn't there."""
        for path in (self.now, self.before):
            if path and not path.is_file():
                raise Missing(f"there is no program {path}")
        return Programs(self.now or program(), self.before)


def words_of(words: Sequence[str], size_word: str, size: int, names: Sequence[str]) -> Words:
    """Reads the words of a call. Raises `Unread`."""
    found, left = Words(None, None, TRIES, size, []), list(words)
    while left and left[0].startswith("-"):
        if len(left) == 1:
            raise Unread(left[0])
        option, value, left = left[0], left[1], left[2:]
        is_number = value.isascii() and value.isdigit() and int(value) > 0
        if option == "--program":
            found = found._replace(now=Path(value).absolute())
        elif option == "--before":
            found = found._replace(before=Path(value).absolute())
        elif option == "--tries" and is_number:
            found = found._replace(tries=int(value))
        elif option == size_word and is_number:
            found = found._replace(size=int(value))
        else:
            raise Unread(option)
    if unknown := [name for name in left if name not in names]:
        raise Unread(unknown[0])
    return found._replace(names=left or list(names))


def bench(doc: str, size_word: str, size: int, names: Sequence[str], body: Callable[[Asked, Figures], None]) -> int:
    """Reads the words of this call and makes a bench's measurements. Answers its status."""
    words = sys.argv[1:]
    if words in (["-h"], ["--help"]):
        print(doc, end="")
        return 0
    try:
        read = words_of(words, size_word, size, names)
    except Unread:
        print(doc.strip(), file=sys.stderr)
        return 1
    figures = Figures()
    try:
        body(Asked(read.programs(), read.tries, read.size, read.names), figures)
    except Missing as lacking:
        print(lacking, file=sys.stderr)
        return 125
    except Wrong as fault:
        print(fault)
        return 1
    return figures.end()
