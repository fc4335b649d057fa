"""Runs with threads, beside a peer whose threads stay."""

from collections.abc import Callable
from dataclasses import dataclass, field
from functools import partial
from pathlib import Path
from typing import NamedTuple

from .calls import Programs, Took, call, least
from .journals import lanes_in
from .peers import count_of, counted_in, counting, peer
from .workloads import Workload

FILES = ("system", "stimuli")


class Threads(NamedTuple):
    """How many threads a run made in all, and how many lanes its journal has."""

    made: int
    lanes: int


@dataclass
class Race:
    """Runs a workload under kernels, each with its journal in a file, beside the peer with mutexes."""

    programs: Programs
    folder: Path
    native: Path | None
    library: Path | None
    #: Of each kernel the threads of the last run by the program that is measured; none without a C compiler.
    threads: dict[str, Threads] = field(default_factory=dict)

    @classmethod
    def begin(cls, programs: Programs, folder: Path) -> "Race":
        """With what a compiler makes, where one is there."""
        return cls(programs, folder, peer("threads", folder), counting(folder))

    def run(self, work: Workload, kernel: str, program: Path, output: str, *words: str) -> Took:
        """A run of the workload, whose files lie in the folder. Its threads are counted on the way."""
        counted = self.folder / "counted"
        settings = counted_in(self.library, counted) if self.library else {}
        took = call(work.run(program, "--kernel", kernel, *words), self.folder, self.folder / output, work.status, settings)
        if self.library and output == kernel:
            self.threads[kernel] = Threads(count_of(counted), lanes_in(self.folder / output))
        return took

    def runs(self, work: Workload, kernels: tuple[str, ...]) -> dict[str, Callable[[], Took]]:
        """The runs under these kernels by each program, and the peer's, by their names; the files are written."""
        work.write(self.folder)
        made: dict[str, Callable[[], Took]] = {}
        for which, path in self.programs.each():
            for kernel in kernels:
                made[f"{kernel} {which}"] = partial(self.run, work, kernel, path, kernel if which == "now" else f"{kernel}-before")
        if self.native and work.peer:
            words: list[str | Path] = [self.native, *work.peer]
            made["peer"] = partial(call, words, self.folder, self.folder / "peer")
        return made

    def measure(self, work: Workload, kernels: tuple[str, ...], tries: int) -> dict[str, Took]:
        """The least of so many tries of each run. The journals of the last ones, and the peer's, must be lawful."""
        found = least(tries, self.runs(work, kernels))
        for journal in (*kernels, *(["peer"] if "peer" in found else [])):
            self.need_lawful(journal)
        return found

    def need_lawful(self, journal: str) -> None:
        """Raises `Wrong` where the program finds a journal broken."""
        call([self.programs.now, "check", *FILES, journal], self.folder, self.folder / "verdict")
