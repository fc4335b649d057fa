"""Tests of charts: files of cases, what differs, orders, coverage and low water."""

import contextlib
import io
import subprocess
import tempfile
import unittest
from pathlib import Path

from qptools.cases.case_file import CaseFault, read_cases
from qptools.cases.command import main
from qptools.cases.outcome import replay_fault
from qptools.cases.summary import read_summary
from qptools.program import TOP, Answer, is_built
from qpviewer.coverage import Coverage
from qpviewer.journal import read_journal
from qpviewer.low_water import LowWater
from qpviewer.stimuli import read_stimuli
from qpviewer.story import Story
from qpviewer.system import read_system

EXAMPLES = TOP / "examples"
JUDGED = TOP / "crates" / "qp_verdicts" / "data"
CASE = '[[case]]\nname = "a"\nsystem = "lamp.toml"\nstimuli = "go.txt"\n'


def answer(*words: str) -> tuple[int, str, str]:
    told, noted = io.StringIO(), io.StringIO()
    with contextlib.redirect_stdout(told), contextlib.redirect_stderr(noted):
        status = main(list(words))
    return status, told.getvalue(), noted.getvalue()


class Files(unittest.TestCase):
    """Files of cases."""

    def setUp(self) -> None:
        folder = tempfile.TemporaryDirectory()
        self.addCleanup(folder.cleanup)
        self.folder = Path(folder.name)
        for name in ("lamp.toml", "go.txt"):
            (self.folder / name).write_text((EXAMPLES / name).read_text())

    def write(self, text: str) -> Path:
        (self.folder / "cases.toml").write_text(text)
        return self.folder / "cases.toml"

    def test_defaults(self) -> None:
        case = read_cases(self.write(CASE))[0]
        self.assertEqual((case.kernels, case.budget, case.end, case.refused, case.blocks_back), (("sim", "qv"), 100_000, 0, None, None))
        self.assertEqual(case.stimuli, self.folder / "go.txt")

    def test_stimuli_as_a_text(self) -> None:
        text = CASE.replace('"go.txt"', '"""\nsource 1\npost lamp GO\n"""')
        self.assertEqual(read_cases(self.write(text))[0].stimuli, "source 1\npost lamp GO\n")

    def test_faults(self) -> None:
        table = (
            ("case = 1\n", "has [[case]] tables"), ("[[case]]\n", "case 1: name is missing"), (CASE + "colour = 1\n", "'colour' is no key"),
            (CASE + 'kernel = "rtos"\n', "a kernel is sim, qv, qk, port or wait"), (CASE + "object.lamp = { colour = 1 }\n", "object lamp: 'colour' is no key"),
            ("[[case", "cases.toml:1: isn't TOML: "), ("case = [1]\n", "has [[case]] tables"),
            (CASE.replace('"go.txt"', "7"), "stimuli must be a text"), (CASE + "kernel = 5\n", "kernel must be a kernel, or a list"),
            (CASE + "kernel = []\n", "kernel must be a kernel, or a list"), (CASE + "end = 1\n", "end must be 0, 3 or 4"),
            (CASE + "budget = 0\n", "budget must be a number, 1 to 1000000"), (CASE + 'refused = "0"\n', "refused must be a number"),
            (CASE + "blocks_back = 1\n", "blocks_back must be true or false"), (CASE + "object.lamp = 5\n", "object must be tables"),
            (CASE + 'object.lamp = { vars = { x = "1" } }\n', "object lamp: vars must be a table of whole numbers"),
            (CASE + "object.lamp = { said = 1 }\n", "object lamp: said must be a list of whole numbers"),
            (CASE + "object.lamp = { took = -1 }\n", "object lamp: took must be a number"),
            (CASE + 'summary = "lost.txt"\n', "summary: [Errno 2] No such file"),
        )
        for text, words in table:
            with self.subTest(words), self.assertRaises(CaseFault) as raised:
                read_cases(self.write(text))
            self.assertIn(words, str(raised.exception))

    @unittest.skipUnless(is_built(), "the program isn't built")
    def test_what_differs(self) -> None:
        table = (
            ("object.lamp = { state = \"on\", took = 1 }\n", []),
            ("object.lamp = { state = \"off\" }\n", ["lamp is in on, expected off"]),
            ("object.lamp = { took = 2, said = [1] }\n", ["lamp took 1 event, expected 2", "lamp said [], expected [1]"]),
            ("object.lamp = { vars = { x = 1 } }\n", ["lamp has no variable x"]),
            ("object.light = { took = 1 }\n", ["the system has no object light"]),
            ("end = 3\n", ["end is 0, expected 3"]), ("refused = 1\n", ["0 calls are refused, expected 1"]),
            ("blocks_back = false\n", ["all blocks are back, expected some out"]),
        )
        for text, told in table:
            with self.subTest(text):
                self.write(CASE + 'kernel = "sim"\n' + text)
                status, printed, _ = answer(str(self.folder))
                self.assertEqual(status, 1 if told else 0)
                self.assertEqual(printed.splitlines()[1:-5], [f"{self.folder}/cases.toml:6: a, sim: {words}" for words in told])
                self.assertEqual([line[:4] for line in printed.splitlines()[-5:-1]], ["pass"] * 4, "the others are judged alone")

    @unittest.skipUnless(is_built(), "the program isn't built")
    def test_a_system_that_is_refused_is_explained(self) -> None:
        (self.folder / "lamp.toml").write_text((EXAMPLES / "lamp.toml").read_text().replace('"GO"\nto', '"go"\nto'))
        self.write(CASE + 'kernel = "sim"\n')
        status, printed, _ = answer(str(self.folder))
        self.assertEqual(status, 1)
        line = (self.folder / "lamp.toml").read_text().split("\n").index('on = "go"') + 1
        self.assertIn(f"\n{self.folder}/lamp.toml:{line}: a, sim: no run: ", printed)
        self.assertIn("row 1 (on go), signal: go isn't declared", printed)

    @unittest.skipUnless(is_built(), "the program isn't built")
    def test_a_run_that_stops_is_told(self) -> None:
        text = (EXAMPLES / "lamp.toml").read_text().replace('to = "on"', 'do = ["post me GO", "post me GO", "post me GO"]')
        (self.folder / "lamp.toml").write_text(text)
        self.write(CASE + 'kernel = "sim"\n')
        self.assertIn("end is 3, expected 0: lamp asserts: the queue of lamp is full", answer(str(self.folder))[1])

    @unittest.skipUnless(is_built(), "the program isn't built")
    def test_counts_of_a_folder(self) -> None:
        self.write(CASE + CASE.replace('"a"', '"b"'))
        status, printed, _ = answer("--cover", "--low", str(self.folder))
        self.assertEqual(status, 0)
        self.assertEqual(printed.splitlines()[10:], [
            "10 passed, 0 failed", f"{self.folder}/lamp.toml:", "chart lamp: 1 of 1 row taken",
            "            size  least free  most used", "queue lamp     2           1          1",
        ])

    def test_journals_of_another_system(self) -> None:
        """Aren't counted."""
        journal = str(JUDGED / "journals" / "walked.txt")
        for word in ("cover", "low"):
            status, printed, noted = answer(word, str(self.folder / "lamp.toml"), journal)
            self.assertEqual((status, printed), (2, ""))
            self.assertIn("walked.txt: names state 3 of lamp, which the system doesn't have; is it the journal of another system?", noted)

    def test_words(self) -> None:
        self.assertEqual(answer("--help")[0], 0)
        for words in ((), (str(self.folder),), ("cover",), ("low", "x"), ("--cover",), (str(self.folder / "lamp.toml"),)):
            with self.subTest(words):
                self.assertIn(answer(*words)[0], (2, 125))


class Replays(unittest.TestCase):
    """What `replay` prints of a run."""

    def test_orders_and_cycles(self) -> None:
        """An order has all records; only where threads made them may there be a cycle."""
        table = (
            (b"order 1\n0 begin 1\n", 1, "sim", True), (b"order 1\n0 begin 1\n", 2, "sim", False), (b"order 2\n0 begin 1\n", 2, "sim", False),
            (b"cycle 1\n0 begin 1\n", 2, "port", True), (b"cycle 1\n0 begin 1\n", 2, "qv", False), (b"cycle 0\n", 2, "qk", False),
            (b"", 0, "qk", False),
        )
        for output, records, kernel, is_right in table:
            with self.subTest(output, records=records, kernel=kernel):
                self.assertEqual(replay_fault(Answer(output, "", 0), records, kernel) == "", is_right)
        self.assertEqual(replay_fault(Answer(b"", "qp: memory\n", 5), 1, "qk"), "qp: memory")


class Counts(unittest.TestCase):
    """Coverage and low water, of the judge's journals."""

    def story(self, system: str, stimuli: str, journal: str) -> Story:
        parts = read_system((JUDGED / "systems" / system).read_bytes())
        lines = read_stimuli((JUDGED / "stimuli" / stimuli).read_bytes(), parts)
        return Story(parts, lines, read_journal((JUDGED / "journals" / journal).read_bytes()))

    def test_coverage(self) -> None:
        lamp = self.story("lamp.toml", "go.txt", "switched.txt")
        coverage = Coverage(lamp.system)
        self.assertEqual(coverage.text(), "chart lamp: 0 of 1 row taken\n  never: state off, row 1 (on GO to on)\n")
        for times in (1, 2):
            coverage.add(lamp.journal)
            self.assertEqual([row.times for row in coverage.rows(lamp.system.charts["lamp"])], [times])
        self.assertEqual(coverage.text(), "chart lamp: 1 of 1 row taken\n")

    def test_low_water(self) -> None:
        full = self.story("crowded.toml", "go.txt", "crowded-out.txt")
        low = LowWater(full.system)
        size = full.system.objects[0].queue + 1
        self.assertEqual(low.lines()[0], ("queue lamp", size, size))
        low.add(full)
        self.assertEqual(low.lines()[0], ("queue lamp", size, 0))

    def test_a_summary(self) -> None:
        found = read_summary("end 3\nobject a 2 s x=-1 y=2\nobject b 1 -\npool 1 given 3 back 0\n")
        self.assertEqual((found.end, found.objects["a"].vars, found.objects["b"].state, found.pools), (3, {"x": -1, "y": 2}, None, [(3, 0)]))


@unittest.skipUnless(is_built(), "the program isn't built")
class Examples(unittest.TestCase):
    """The examples are cases."""

    def test_a_page_shows_one(self) -> None:
        page = (TOP / "docs" / "TESTING.md").read_text()
        shown = page.split("```\n[[case]]")[1].split("```")[0]
        self.assertIn(shown.strip(), (EXAMPLES / "clock" / "cases.toml").read_text())

    def test_the_program(self) -> None:
        ran = subprocess.run([TOP / "tools" / "qptest", EXAMPLES / "clock"], capture_output=True, text=True)
        self.assertEqual((ran.returncode, ran.stdout.splitlines()[-1]), (0, "15 passed, 0 failed"))
