"""What the tests of pages in a browser share: one browser, runs, and the pages of runs."""

import sys
import tempfile
import unittest
from pathlib import Path
from typing import Any

HERE = Path(__file__).resolve().parent
ROOT = HERE.parent.parent
sys.path[:0] = [str(HERE.parent)]

from chromium import Chromium  # noqa: E402
from qpviewer.journal import read_journal  # noqa: E402
from qpviewer.page import page_of  # noqa: E402
from qpviewer.stimuli import read_stimuli  # noqa: E402
from qpviewer.story import Story  # noqa: E402
from qpviewer.system import read_system  # noqa: E402
from qpviewer.verdict import Verdict  # noqa: E402

Files = tuple[Path, Path, Path]

EXAMPLES = ROOT / "examples"
JUDGED = ROOT / "crates" / "qp_verdicts" / "data"
TABLE = EXAMPLES / "philosophers"
PHILOSOPHERS = (TABLE / "table.toml", TABLE / "two.txt", TABLE / "two-ticks.txt")
#: The same with threads, beside the kernel and without one.
BESIDE = {f"philosophers-{kernel}": (TABLE / "table.toml", TABLE / "two.txt", TABLE / f"two-ticks-{kernel}.txt") for kernel in ("qk", "port")}
LAMP = (EXAMPLES / "lamp.toml", EXAMPLES / "go.txt")
#: Runs of each kernel that between them have every part of a page.
SHOWN = (
    "preempted", "walked", "cut-in-publication", "crossed-settles", "varied-calls", "cooperative", "heard-by-three",
    "switched-beside-kernel", "short-of-blocks", "ticked", "left-alone-in-threads",
)
WIDTHS = (360, 400, 768, 1024, 1280, 1440, 1920)
SECONDS = 5.0


def long_journal(records: int) -> bytes:
    """A lamp that takes post after post until there are about so many records."""
    kernel = ["begin 1", "enter 1 1", "done 1"]
    source = []
    rounds = (records - 5) // 7
    for k in range(1, rounds + 1):
        kernel += [f"look 0 {k} 0", f"seen 0 1 {k} 0 {k - 1}", f"took 1 {k} 0 {k} 0 4 0"]
        kernel += ["run 1 1 1", "exit 1 1", "enter 1 2", "done 1"] if k == 1 else ["none 1", "done 1"]
        source += [f"stim 0 {k} {k}", f"post 0 1 {k} 0 {k - 1} 0 4 0"]
    kernel += [f"look 0 {rounds + 1} 0", f"seen 0 1 {rounds} 0 {rounds}"]
    return "\n".join(["qp 1 0 1000000", "lane 0", *kernel, "lane 1", *source, "end 0", ""]).encode()


def run_of(name: str) -> Files:
    """The files of a lawful run of the judge's tests."""
    table = dict(line.split("\t", 1) for line in (JUDGED / "lawful.txt").read_text().splitlines())
    system, stimuli, journal = table[name].split("\t")
    return JUDGED / "systems" / system, JUDGED / "stimuli" / stimuli, JUDGED / "journals" / journal


def story_of(files: Files, journal: bytes | None = None) -> Story:
    system = read_system(files[0].read_bytes())
    return Story(system, read_stimuli(files[1].read_bytes(), system), read_journal(journal or files[2].read_bytes()))


class Browser(unittest.TestCase):
    """One browser for the tests of a class. With a folder, pictures are left there."""

    folder: Path | None = None
    made: tempfile.TemporaryDirectory[str]
    chromium: Chromium

    @classmethod
    def setUpClass(cls) -> None:
        cls.made = tempfile.TemporaryDirectory()
        cls.addClassCleanup(cls.made.cleanup)
        cls.chromium = Chromium()
        cls.addClassCleanup(cls.chromium.__exit__)

    def tearDown(self) -> None:
        self.assertEqual(self.chromium.errors, [])

    def write(self, name: str, page: str) -> Path:
        path = Path(self.made.name, f"{name}.html")
        path.write_text(page, encoding="utf-8")
        return path

    def page(self, name: str, files: Files, journal: bytes | None = None, verdict: Verdict | None = None) -> Path:
        return self.write(name, page_of(story_of(files, journal), (files[0].name, files[1].name, name), verdict))

    def value(self, expression: str) -> Any:
        return self.chromium.value(expression)

    def selected(self) -> int:
        """The chosen record from 1, as the page's field says."""
        return int(self.value("byId('number').value"))

    def told(self, record: int) -> str:
        """A record's words, as the page's script says them."""
        return self.value(f"Object.values(inWords({record - 1})).join(' ')")
