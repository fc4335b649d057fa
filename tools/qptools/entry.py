"""How the scripts of tools/ end: with a status, and quietly where nobody reads on."""

import os
import sys
from collections.abc import Callable

NOT_WRITTEN = 7


def ended(main: Callable[[list[str]], int]) -> int:
    """Calls `main` with the script's words; answers the status."""
    try:
        status = main(sys.argv[1:])
        sys.stdout.flush()
        return status
    except BrokenPipeError:
        os.dup2(os.open(os.devnull, os.O_WRONLY), sys.stdout.fileno())
        return NOT_WRITTEN
    except KeyboardInterrupt:
        return 130
