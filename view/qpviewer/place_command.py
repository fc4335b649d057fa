"""The words of a call for the place of a verdict."""

import sys

from .command import BAD_FILE, BAD_WORDS, DONE
from .faults import Fault
from .files import Unread, read_run
from .place import place_of

USAGE = """usage: qpplace SYSTEM STIMULI JOURNAL VERDICT

Names the first record at which what `qp check` says fails, and shows the history around it. VERDICT is its line, or `-` to read
it from standard input.
"""

#: The verdict's place can't be told.
NOT_TOLD = 3


def main(words: list[str]) -> int:
    """Writes the place to standard output; answers the status."""
    if words in (["-h"], ["--help"]):
        print(USAGE, end="")
        return DONE
    if len(words) != 4:
        print(USAGE, end="", file=sys.stderr)
        return BAD_WORDS
    try:
        system, stimuli, journal = read_run(*words[:3])
        place = place_of(system, journal, sys.stdin.read() if words[3] == "-" else words[3], stimuli)
    except Unread as unread:
        return _tell(str(unread), BAD_FILE)
    except Fault as fault:
        return _tell(str(fault), BAD_WORDS)
    if place is None:
        return _tell("the place of this verdict can't be told", NOT_TOLD)
    print(place.text(), end="")
    return DONE


def _tell(line: str, status: int) -> int:
    print(f"qpplace: {line}", file=sys.stderr)
    return status
