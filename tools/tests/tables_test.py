"""Each fault that the program's own tables have is explained, without a fault of the explanation's own."""

import os
import tempfile
import unittest
from pathlib import Path

from qptools.explain.command import explanation
from qptools.program import TOP

DATA = TOP / "crates" / "qp_verdicts" / "data"
NAMES = {"system": "system.toml", "stimuli": "stimuli.txt", "journal": "journal.txt"}


def blocks(table: str) -> list[list[tuple[str, str]]]:
    """The blocks of a table: each its keys with their values."""
    found = []
    for text in (DATA / f"{table}.txt").read_text().split("\n\n"):
        lines = [line.split(": ", 1) for line in text.splitlines() if line and not line.startswith("#")]
        found += [[(key, value) for key, value in (line if len(line) == 2 else (line[0].rstrip(":"), "") for line in lines)]] if lines else []
    return found


def plain(text: str) -> str:
    return text.replace("\\n", "\n").replace("\\s", " ").replace("\\e", "")


class Tables(unittest.TestCase):
    """The tables of faults of systems and of stimuli, and of journals."""

    def explained(self, block: list[tuple[str, str]], kind: str, given: str | None = None) -> list[str]:
        """What is said of a block's fault in its file of a kind; `given` is that file's text where a line of `for` has it."""
        files: dict[str, str] = {}
        for key, value in block:
            for part, name in NAMES.items():
                if key == f"{part} file":
                    files[name] = (DATA / value).read_text() + files.get(name, "")
                elif key == part and value not in ("\\", "@\\"):
                    files[name] = files.get(name, "") + value + "\n"
        if given is not None:
            files[NAMES[kind]] = given
        answer = dict(block)["answer"]
        code, _, place = answer.partition(f"{kind}: ")[2].partition(" ")
        with tempfile.TemporaryDirectory() as folder:
            for name, text in files.items():
                Path(folder, name).write_text(text, newline="")
            for name in NAMES.values():
                Path(folder, name).touch()
            before = Path.cwd()
            os.chdir(folder)
            try:
                words = ["check", *NAMES.values()]
                return explanation(words, f"qp: {NAMES[kind]}: {code} {place}\n")
            finally:
                os.chdir(before)

    def try_all(self, table: str, kind: str) -> int:
        tried = 0
        for block in blocks(table):
            keys = dict(block)
            if f"{kind}: " not in keys.get("answer", "") or keys["answer"].endswith("absent"):
                continue
            for given in [plain(value) for key, value in block if key == "for"] or [None]:
                with self.subTest(keys.get("case", ""), given=given):
                    told = self.explained(block, kind, given)
                    self.assertTrue(told and all(told), told)
                    tried += 1
        return tried

    def test_systems(self) -> None:
        self.assertGreater(self.try_all("system-faults", "system"), 35)

    def test_stimuli(self) -> None:
        self.assertGreater(self.try_all("stimulus-faults", "stimuli"), 15)

    def test_journals(self) -> None:
        self.assertGreater(self.try_all("journal-faults", "journal"), 10)
