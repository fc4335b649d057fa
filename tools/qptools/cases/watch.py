"""Runs something again whenever a file changes. Between two looks at the files it sleeps, so that looking takes a small part of one
processor, however many files there are."""

import time
from collections.abc import Callable, Iterable
from pathlib import Path
from typing import NoReturn

#: The shortest time between two looks, and how many times as long as a look it is at least.
SECONDS = 0.5
_SHARE = 30

#: What tells one state of a file from another; none where it isn't there.
Stamp = tuple[int, int, int] | None


def stamps(files: Iterable[Path]) -> dict[Path, Stamp]:
    """The state of each file."""
    return {file: _stamp(file) for file in files}


def _stamp(file: Path) -> Stamp:
    try:
        found = file.stat()
    except OSError:
        return None
    return found.st_mtime_ns, found.st_size, found.st_ino


def changed(before: dict[Path, Stamp], now: dict[Path, Stamp]) -> list[Path]:
    """The files of which the state differs."""
    return [file for file in {**before, **now} if before.get(file) != now.get(file)]


def watch(run: Callable[[], object], files: Callable[[], Iterable[Path]], say: Callable[[str], None]) -> NoReturn:
    """Runs, and again behind each change of a file, once two looks in succession show the same."""
    while True:
        begun = stamps(files())
        run()
        say(f"watching {len(begun)} files; Ctrl-C ends it")
        say(f"changed: {', '.join(map(str, _next_changes(begun, files)))}")


def _next_changes(last: dict[Path, Stamp], files: Callable[[], Iterable[Path]]) -> list[Path]:
    """Sleeps until files differ from what they were, and stand still again; answers which of them changed."""
    found: dict[Path, None] = {}
    seconds = SECONDS
    while True:
        time.sleep(seconds)
        begun = time.monotonic()
        now = stamps(files())
        seconds = max(SECONDS, _SHARE * (time.monotonic() - begun))
        those = changed(last, now)
        if found and not those:
            return list(found)
        found |= dict.fromkeys(those)
        last = now
