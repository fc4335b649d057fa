"""Builds the libraries below a crate, lowest first and several at once, by `rt lib` in each.

A run of the toolchain locks its crate and all those below it, so two runs in one checkout wait for each other. Each job so works in a
copy of the sources, and the checkout takes over what was built there, as the toolchain has it for several checkouts on one machine."""

import os
import queue
import shutil
import subprocess
import sys
import tempfile
import threading
import time
from collections.abc import Callable, Iterable, Iterator
from concurrent.futures import FIRST_COMPLETED, Future, ThreadPoolExecutor, wait
from contextlib import contextmanager
from pathlib import Path

from .program import TOP

USAGE = """usage: tools/libraries [--jobs N] [CRATE]

Proves and builds the libraries of this repository below a crate (qp_cli), lowest first, N at once; what is built stays. N is one for each
processor that has 4 gigabytes of memory, if it is left out. Where fewer than N can begin, each gets several jobs. From nothing all of them
take less than an hour on four processors. Needs the toolchain, with its command rt on the path. Ends with 1 where one isn't built, and says
which; what it said is in the crate's out/libraries.log."""

#: What one job may take of memory, in gigabytes.
GIGABYTES = 4
LOG = "libraries.log"
#: What a build of a crate reads.
PARTS = ("src", "specs", "proofs")

Below = dict[str, list[str]]


def read_crates(text: str) -> Below:
    """The crates of a crates.txt, each with those of the repository that it names."""
    named: Below = {}
    for line in text.splitlines():
        head, colon, deps = line.partition("#")[0].partition(":")
        if colon and head.split():
            named[head.split()[0]] = deps.split()
    return {name: [dep for dep in deps if dep in named] for name, deps in named.items()}


def all_below(name: str, below: Below) -> list[str]:
    """The libraries below a crate, each behind those below it."""
    order: list[str] = []

    def put(crate: str) -> None:
        for dep in below[crate]:
            if dep not in order:
                put(dep)
                order.append(dep)

    put(name)
    return order


def lengths_above(crates: list[str], below: Below, size: Callable[[str], int]) -> dict[str, int]:
    """How much stands between each crate and the top along the longest way, its own size among it."""
    length = {crate: size(crate) for crate in crates}
    for crate in reversed(crates):
        for dep in below[crate]:
            length[dep] = max(length[dep], size(dep) + length[crate])
    return length


def jobs_here() -> int:
    """How many jobs this machine has room for."""
    memory = os.sysconf("SC_PAGE_SIZE") * os.sysconf("SC_PHYS_PAGES") / 2**30
    return max(1, min(os.cpu_count() or 1, round(memory / GIGABYTES)))


def size_of(name: str) -> int:
    """The lines of a crate's sources, specifications and proofs."""
    folder = TOP / "crates" / name
    files = (file for part in PARTS for file in (folder / part).rglob("*") if file.is_file())
    return sum(file.read_bytes().count(b"\n") for file in files)


def shares(begin: int, running: int, jobs: int) -> list[int]:
    """How many jobs each crate gets of those that begin now, the one with the longest way to the top first, beside those that run. Where
    there are fewer crates than jobs all that stands above waits for them, so the first gets all jobs, and the processors are shared."""
    crates = begin + running
    if not begin or crates >= jobs:
        return [1] * begin
    return [jobs] + [-(-jobs // crates)] * (begin - 1)


def copied(crates: Iterable[str], to: Path) -> Path:
    """Copies what builds of these crates read, which are all that crates.txt names."""
    for file in ("crates.txt", "HANDLES"):
        shutil.copy(TOP / file, to / file)
    for crate in crates:
        for part in PARTS:
            if (TOP / "crates" / crate / part).is_dir():
                shutil.copytree(TOP / "crates" / crate / part, to / "crates" / crate / part)
    return to


class Builders:
    """Builds libraries in copies of the sources, one for each that is built at the same time."""

    def __init__(self, copies: list[Path]) -> None:
        self.free: queue.SimpleQueue[Path] = queue.SimpleQueue()
        for copy in copies:
            self.free.put(copy)
        self.taking = threading.Lock()

    def build(self, name: str, jobs: int) -> int:
        """Builds a library with so many jobs, and has the checkout take it over; the output goes to a file beside it. Answers the status,
        negative where a signal ended it."""
        here, copy = TOP / "crates" / name, self.free.get()
        (here / "out").mkdir(exist_ok=True)
        with open(here / "out" / LOG, "wb") as log:

            def lib(folder: Path) -> int:
                words = ["rt", "lib", "--jobs", str(jobs)]
                return subprocess.run(words, cwd=folder, stdin=subprocess.DEVNULL, stdout=log, stderr=log).returncode

            status = lib(copy / "crates" / name)
            self.free.put(copy)
            with self.taking:
                return status or lib(here)


def room() -> Path:
    """Where copies stand: in the folder for temporary files, or beside the checkout where that is another file system, since what is built
    takes gigabytes, and is linked within one."""
    temporary = Path(tempfile.gettempdir())
    return temporary if temporary.stat().st_dev == TOP.stat().st_dev else TOP.parent


@contextmanager
def builders(crates: Iterable[str], jobs: int) -> Iterator[Builders]:
    """Builders of these crates, whose copies are gone behind it."""
    with tempfile.TemporaryDirectory(prefix="qp-build-", dir=room()) as folder:
        copies = [Path(folder) / str(number) for number in range(jobs)]
        for copy in copies:
            copy.mkdir()
            copied(crates, copy)
        yield Builders(copies)


def build_all(
    name: str, below: Below, jobs: int, size: Callable[[str], int], build: Callable[[str, int], int], say: Callable[[str], None]
) -> list[str]:
    """Builds the libraries below a crate; of those that can begin the one with the longest way to the top begins first. Answers
    those that weren't built; what stands on one of these isn't begun."""
    left = all_below(name, below)
    length = lengths_above(left, below, size)
    total, done, failed = len(left), set[str](), list[str]()
    running: dict[Future[int], str] = {}
    with ThreadPoolExecutor(jobs) as pool:
        while left or running:
            ready = [crate for crate in left if done.issuperset(below[crate])]
            begin = sorted(ready, key=lambda crate: -length[crate])[:jobs - len(running)]
            for crate, share in zip(begin, shares(len(begin), len(running), jobs)):
                left.remove(crate)
                say(f"building {crate}")
                running[pool.submit(build, crate, share)] = crate
            if not running:
                break
            for future in wait(running, return_when=FIRST_COMPLETED).done:
                crate = running.pop(future)
                if status := future.result():
                    failed.append(crate)
                    say(f"{crate} isn't built, status {status}; what it said is in crates/{crate}/out/{LOG}")
                else:
                    done.add(crate)
                    say(f"built {crate}, {len(done)} of {total}")
    return failed


def main(words: list[str]) -> int:
    """Builds what the words ask for; answers the status."""
    jobs, name = jobs_here(), "qp_cli"
    if words in (["-h"], ["--help"]):
        print(USAGE)
        return 0
    if words[:1] == ["--jobs"] and len(words) > 1 and words[1].isdigit() and int(words[1]):
        jobs, words = int(words[1]), words[2:]
    below = read_crates((TOP / "crates.txt").read_text())
    if words:
        name, *words = words
    if words or name not in below:
        print(USAGE, file=sys.stderr)
        return 1
    begun = time.monotonic()

    def say(line: str) -> None:
        minutes, seconds = divmod(round(time.monotonic() - begun), 60)
        print(f"{minutes:>3}:{seconds:02} {line}", file=sys.stderr, flush=True)

    with builders(below, jobs) as at:
        return 1 if build_all(name, below, jobs, size_of, at.build, say) else 0
