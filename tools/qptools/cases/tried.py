"""A case that was run under a kernel, and how that is told."""

import time
from dataclasses import dataclass
from typing import NamedTuple

from qpviewer.story import Story

from .case_file import Case
from .compare import differences
from .outcome import NoRun, run_case


class Failure(NamedTuple):
    """What fails: where, as `FILE:LINE`, in words, and lines that say more."""

    place: str
    words: str
    more: list[str]


@dataclass(frozen=True)
class Tried:
    """What came of a case under a kernel: what fails, the story of the run, which is missing where there was none, how long it took, and whether
    every order was gone through in the place of a run."""

    case: Case
    kernel: str
    failures: list[Failure]
    story: Story | None
    seconds: float
    every_order: bool = False

    @property
    def name(self) -> str:
        """How the case under this kernel is called."""
        return f"{self.case.name}, {'every order under ' if self.every_order else ''}{self.kernel}"

    @property
    def is_error(self) -> bool:
        """Whether there was no run."""
        return self.story is None and not self.every_order

    def text(self) -> str:
        """A line for the case, and what fails below it."""
        head = "FAIL" if self.failures else "pass"
        judged = "" if self.every_order or self.kernel in self.case.kernels else ", judged alone"
        return f"{head}  {self.case.source.path.parent}: {self.name}{judged}\n{self.failures_text()}"

    def failures_text(self) -> str:
        """What fails, each as `FILE:LINE: message`."""
        lines = []
        for failure in self.failures:
            lines += [f"{failure.place}: {self.name}: {failure.words}", *(f"      {line}" for line in failure.more)]
        return "".join(f"{line}\n" for line in lines)


def try_case(case: Case, kernel: str) -> Tried:
    """Runs a case under a kernel, and says what of it isn't as expected."""
    begun = time.monotonic()
    outcome = run_case(case, kernel)
    seconds = time.monotonic() - begun
    if isinstance(outcome, NoRun):
        return Tried(case, kernel, [Failure(outcome.place, f"no run: {outcome.words}", outcome.lines)], None, seconds)
    failures = [Failure(case.place(key), words, []) for key, words in differences(case, outcome, kernel)]
    return Tried(case, kernel, failures, outcome.story, seconds)
