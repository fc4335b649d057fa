"""Figures as the benches print them, beside what is asked of each."""


class Figures:
    """Prints each figure in a line, and keeps those that miss what is asked of them."""

    def __init__(self) -> None:
        self.missed: list[str] = []
        self.of = ""

    def begin(self, of: str) -> None:
        """Prints what the next figures are of."""
        self.of = of
        print(of, flush=True)

    def tell(self, what: str, value: float, told: str = "") -> None:
        """A figure of which nothing is asked."""
        self._line(what, value, told)

    def ask(self, what: str, value: float, *, most: float | None = None, least: float | None = None) -> None:
        """A figure of which at most so much is asked, or at least so much, or nothing."""
        if most is None and least is None:
            self.tell(what, value)
            return
        misses = (most is not None and value > most) or (least is not None and value < least)
        asked = f"at most {most:g}" if most is not None else f"at least {least:g}"
        self._line(what, value, f"{asked}: {'missed' if misses else 'met'}")
        if misses:
            self.missed.append(f"{self.of}: {what}: {short(value)}, {asked}")

    def end(self) -> int:
        """Prints what misses. Answers the status."""
        for line in self.missed:
            print(f"missed: {line}")
        if not self.missed:
            print("each figure is as is asked of it")
        return 1 if self.missed else 0

    def _line(self, what: str, value: float, told: str) -> None:
        print(f"  {what:<52}{short(value):>12}   {told}".rstrip(), flush=True)


def short(value: float) -> str:
    """A number as it is printed: whole from a hundred on, else with three digits or so."""
    size = abs(value)
    return f"{value:,.0f}" if size >= 100 or value == int(value) else f"{value:.1f}" if size >= 10 else f"{value:.2f}" if size >= 1 else f"{value:.3f}"
