"""Why a file can't be drawn."""


class Fault(Exception):
    """A file that can't be drawn: the place in it, and what is wrong there in words."""

    def __init__(self, place: str, words: str):
        super().__init__(f"{place}: {words}" if place else words)
