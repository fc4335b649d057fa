"""What the viewer's tests share: runs, defects, and a reader of pages."""

import re
from html.parser import HTMLParser
from pathlib import Path

from qpviewer.journal import Journal, read_journal
from qpviewer.stimuli import read_stimuli
from qpviewer.system import read_system
from qpviewer.system_parts import System


VIEW = Path(__file__).resolve().parent.parent
ROOT = VIEW.parent
JUDGED = ROOT / "crates" / "qp_verdicts" / "data"
EXAMPLES = ROOT / "examples"
#: The one lawful journal whose numbers fit no order: two settles of two sources cross.
WITHOUT_ORDER = {"crossed-settles"}


class Reader(HTMLParser):
    """The texts of a page's scripts by their ids, and all attributes that could fetch something."""

    def __init__(self, page: str):
        super().__init__()
        self.scripts: dict[str, str] = {}
        self.fetched: list[str] = []
        self.ids: list[str] = []
        self._open: str | None = None
        self.feed(page)
        self.close()

    def handle_starttag(self, tag: str, attributes: list[tuple[str, str | None]]) -> None:
        given = dict(attributes)
        self._open = given.get("id") or "" if tag == "script" else None
        self.fetched += [
            value for name, value in attributes
            if name in ("src", "href", "srcset", "action", "data") and value and not value.startswith("#")
        ]
        if name := given.get("id"):
            self.ids.append(name)

    def handle_endtag(self, tag: str) -> None:
        self._open = None

    def handle_data(self, data: str) -> None:
        if self._open is not None:
            self.scripts[self._open] = self.scripts.get(self._open, "") + data


def runs(table: str = "lawful.txt") -> dict[str, tuple[Path, Path, Path]]:
    """The runs of a table of the judge's tests: the name, then the files of system, stimuli and journal."""
    lines = (JUDGED / table).read_text().splitlines()[1:]
    named = (line.split("\t") for line in lines)
    return {
        name: (JUDGED / "systems" / system, JUDGED / "stimuli" / stimuli, JUDGED / "journals" / journal)
        for name, system, stimuli, journal in named
    }


def examples() -> dict[str, tuple[Path, Path, Path]]:
    """One run under each of three kernels, the last two with threads."""
    folder = EXAMPLES / "philosophers"
    journals = {"philosophers": "two-ticks.txt", "philosophers-qk": "two-ticks-qk.txt", "philosophers-port": "two-ticks-port.txt"}
    return {name: (folder / "table.toml", folder / "two.txt", folder / journal) for name, journal in journals.items()}


def read(files: tuple[Path, Path, Path], journal: bytes | None = None) -> tuple[System, list[list[str]], Journal]:
    system = read_system(files[0].read_bytes())
    return system, read_stimuli(files[1].read_bytes(), system), read_journal(journal or files[2].read_bytes())


def lanes_of(text: str) -> list[list[str]]:
    """The records of each lane, straight from a journal's text."""
    lanes: list[list[str]] = []
    for line in text.splitlines():
        if line.startswith("lane "):
            lanes.append([])
        elif lanes and not line.startswith("end "):
            lanes[-1].append(line)
    return lanes


def defects() -> list[tuple[str, str, str]]:
    """The defects of the judge's tests: name, run, and the changed journal."""
    known = runs() | runs("beside.txt")
    found = []
    for block in (JUDGED / "defects.txt").read_text().split("\n\n"):
        lines = [line for line in block.splitlines() if not line.startswith("#")]
        facts = dict(line.split(": ", 1) for line in lines if line.startswith(("defect: ", "run: ")))
        if not facts:
            continue
        journal: list[list[str]] = [[line] for line in known[facts["run"]][2].read_text().splitlines()]
        for line in lines:
            if edit := re.fullmatch(r"(replace|drop|insert) ([0-9]+): (.*)", line):
                kind, place, words = edit[1], int(edit[2]) - 1, edit[3]
                if kind == "insert":
                    journal[place].append(words)
                else:
                    journal[place][0:1] = [] if kind == "drop" else [words.split(" -> ")[1]]
        found.append((facts["defect"], facts["run"], "".join(f"{line}\n" for lines in journal for line in lines)))
    return found


COUNTERS = 16
_COUNTERS = """qp = 1

[[signal]]
name = "ADD"
params = 1

[[pool]]
size = 1
blocks = 1

[[chart]]
name = "counter"
vars = { total = 0 }
init = "counting"

[[chart.state]]
name = "counting"
row = [{ on = "ADD", do = ["total = total + p1", "say total"] }]
"""


def counters(rounds: int) -> tuple[System, Journal]:
    """Sixteen counters with a pool of one block, and a lawful run under `qv` in which a source posts so many numbers, of which each is taken
    before the next one; a round has eleven records."""
    objects = "".join(f'\n[[object]]\nname = "c{k}"\nchart = "counter"\npriority = {k}\nqueue = 3\n' for k in range(1, COUNTERS + 1))
    lane = [line for k in range(1, COUNTERS + 1) for line in (f"begin {k}", f"enter {k} 1", f"done {k}")]
    source = []
    for k in range(rounds):
        who, taken = 1 + k % COUNTERS, k // COUNTERS
        source += [
            f"stim 0 {k + 1} {k + 1}", f"new 0 1 {2 * k} 0 {2 * k} 4 3", f"inc 0 1 0 {2 * k}", f"post 0 {who} {taken + 1} 0 {taken} 1 0 {2 * k}",
        ]
        lane += [
            f"look 0 {k + 1} 0", f"took {who} {taken + 1} 0 {taken + 1} 1 0 {2 * k}", f"run {who} 1 1", f"say {who} {3 * (taken + 1)}",
            f"done {who}", f"dec {who} 1 0 {2 * k + 1} {2 * k}", f"back {who} 1 {2 * k + 1} 0 {2 * k + 2}",
        ]
    text = "\n".join(["qp 2 3 1000000", "lane 0", *lane, "lane 1", *source, "end 0", ""])
    return read_system((_COUNTERS + objects).encode()), read_journal(text.encode())
