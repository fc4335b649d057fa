"""What the program says of files, where it is built: it decides whether a file is one, and nothing here does."""

import os
import sys

from qptools.program import call, is_built

#: A call that reads its files whole, and takes no event but the first of each object.
_SHORTEST = ["run", "--budget", "1", "--out", "summary"]
#: Statuses by which the program refuses files, and has no memory, or can't read them.
_REFUSED = (2, 5, 6)


def refused(system_name: str, stimuli_name: str = os.devnull) -> int:
    """The status by which the program refuses a system or stimuli; its line is then written on. 0 where it takes them, or isn't built."""
    if not is_built():
        return 0
    answer = call([*_SHORTEST, "--", system_name, stimuli_name])
    if answer.status not in _REFUSED:
        return 0
    sys.stderr.write(answer.note)
    return answer.status
