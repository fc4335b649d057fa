"""What isn't drawn, and what is said then."""

import contextlib
import io
import re
import subprocess
import tempfile
import unittest
from pathlib import Path

from qpviewer.command import main
from qpviewer.faults import Fault
from qpviewer.journal import read_journal
from qpviewer.system import read_system
from support import EXAMPLES, VIEW, examples, runs


class Refused(unittest.TestCase):
    """What isn't drawn, and what is said then."""

    def setUp(self) -> None:
        self.folder = tempfile.TemporaryDirectory()
        self.addCleanup(self.folder.cleanup)

    def file(self, name: str, content: bytes) -> str:
        path = Path(self.folder.name, name)
        path.write_bytes(content)
        return str(path)

    def answer(self, *words: str) -> tuple[int, str]:
        told = io.StringIO()
        with contextlib.redirect_stderr(told):
            return main(list(words)), told.getvalue()

    def test_journals(self) -> None:
        head = b"qp 1 0 100000\nlane 0\n"
        table = [
            (b"", 1, 5), (b"qp 1 0 100000", 1, 1), (head, 3, 5), (b"\n", 1, 1), (head + b"rest 0 1\n", 3, 1),
            (head + b"begin  1\n", 3, 2), (head + b"begin 01\n", 3, 2), (head + b"begin 18446744073709551616\n", 3, 2),
            (head + b"begin 1 2\n", 3, 3), (head + b"assert 1 6\n", 3, 3), (head + b"new 1 1 0 0 0\n", 3, 3),
            (b"lane 0\n", 1, 4), (head + b"lane 2\n", 3, 4), (head + b"end 0\nbegin 1\n", 4, 4),
            (b"qp 1 3 100000\n", 1, 6), (b"qp 3 0 1\n", 1, 6), (head + b"begin 33\n", 3, 6), (head + b"end 1\n", 3, 6),
            (b"qp 2 0 1\nlane 0\nsay 1 -0\n", 3, 2), (b"qp 2 0 1\nlane 0\nsay 1 9223372036854775808\n", 3, 2),
        ]
        for content, line, code in table:
            with self.subTest(content):
                with self.assertRaisesRegex(Fault, rf"^line {line}: .*\(code {code}\)$"):
                    read_journal(content)

    def test_a_faulty_journal_is_told_with_its_line(self) -> None:
        journal = self.file("cut.txt", b"qp 1 0 100000\nlane 0\nbegin 1\n")
        status, told = self.answer(str(EXAMPLES / "lamp.toml"), str(EXAMPLES / "go.txt"), journal)
        self.assertEqual(status, 2)
        self.assertEqual(told, f"qpview: {journal}: line 4: the text ends without an `end` line (code 5)\n")

    def test_absent_files_and_words(self) -> None:
        lamp, go = str(EXAMPLES / "lamp.toml"), str(EXAMPLES / "go.txt")
        self.assertEqual(self.answer(lamp, go, "absent.txt"), (2, "qpview: absent.txt: absent\n"))
        self.assertEqual(self.answer(lamp)[0], 1)
        self.assertEqual(self.answer("--txt", lamp, go, "run.txt"), (1, "qpview: --txt is no option; --text, --records, --perfetto, --beside and --parted are\n"))
        self.assertEqual(self.answer(lamp, go, "run.txt", "--text"), (1, "qpview: --text stands before the files\n"))
        status, told = self.answer(lamp, go, self.folder.name)
        self.assertEqual(status, 2)
        self.assertIn("can't be read", told)

    def test_systems(self) -> None:
        lamp = (EXAMPLES / "lamp.toml").read_text()
        table = [
            ("qp =", "isn't TOML"), (lamp.replace('init = "off"', 'init = "dim"'), "chart.1.init: 'dim' isn't declared"),
            (lamp.replace("queue = 1", "queue = 256"), "object.1.queue: isn't between 0 and 255"),
            (lamp.replace("qp = 1", "qp = 1.0"), "qp: isn't an integer"),
            (lamp + "colour = 1\n", "object.1: has the unknown key"),
            (lamp.replace('name = "off"', 'name = "off"\nparent = "off"'), "parent: a state is among its own ancestors"),
            ("", "qp: is missing"), ("qp = 1\nchart = 1\n", "chart: isn't a list"), ("qp = 1\nchart = [1]\n", "chart.1: isn't a table"),
            ("a = " + "[" * 5000, "isn't TOML"),
        ]
        for content, words in table:
            with self.subTest(words):
                system = self.file("system.toml", content.encode())
                status, told = self.answer(system, str(EXAMPLES / "go.txt"), str(EXAMPLES / "go.txt"))
                self.assertEqual(status, 2)
                self.assertIn(words, told)
                self.assertEqual(told.count("\n"), 1)

    def test_a_byte_order_mark(self) -> None:
        """Is skipped at the head of a system, and refused in stimuli, as the program does."""
        system = self.file("system.toml", b"\xef\xbb\xbf" + (EXAMPLES / "lamp.toml").read_bytes())
        self.assertEqual([entry.name for entry in read_system(Path(system).read_bytes()).objects], ["lamp"])
        stimuli = self.file("stimuli.txt", b"\xef\xbb\xbfsource 1\n")
        self.assertIn(": line 1: ", self.answer(system, stimuli, system)[1])

    def test_a_journal_of_another_system(self) -> None:
        """Is refused in words, and drawn with its verdict."""
        lamp, go = str(EXAMPLES / "lamp.toml"), str(EXAMPLES / "go.txt")
        table = {"philosophers": "signal 5", "walked": "state 3 of lamp", "ticked": "time event 1"}
        for name, what in table.items():
            with self.subTest(name):
                journal = (runs() | examples())[name][2]
                status, told = self.answer(lamp, go, str(journal))
                self.assertEqual(status, 2)
                self.assertRegex(told, rf"line [0-9]+: names {re.escape(what)}, which the system doesn't have")
        page = subprocess.run([VIEW / "qpview", lamp, go, journal, "broken D15 object 1"], capture_output=True, check=True)
        self.assertTrue("Is this the journal of another system?" in page.stdout.decode())

    def test_a_verdict_as_a_fourth_word(self) -> None:
        files = [str(file) for file in runs()["switched"]]
        page = subprocess.run([VIEW / "qpview", *files, "qp: broken D19 lane 0"], capture_output=True, check=True)
        self.assertTrue("<code>broken D19 lane 0</code>: kernel lane: lane 0 isn" in page.stdout.decode())
        status, told = self.answer(*files, "unlawful")
        self.assertEqual((status, told), (2, "qpview: 'unlawful' isn't a verdict, as `lawful` or `broken D12 block 1 1`\n"))

    def test_stimuli(self) -> None:
        lamp = str(EXAMPLES / "lamp.toml")
        for content, line in ((b"post lamp GO\n", 1), (b"source 1\npost lamp DIM\n", 2), (b"source 2\n", 1),
                              (b"source 1\ntick 4\n", 2), (b"source 1\n\xff\n", 2)):
            with self.subTest(content):
                stimuli = self.file("stimuli.txt", content)
                status, told = self.answer(lamp, stimuli, lamp)
                self.assertEqual(status, 2)
                self.assertIn(f": line {line}: ", told)

    def test_the_program(self) -> None:
        files = [str(file) for file in examples()["philosophers"]]
        run = subprocess.run([VIEW / "qpview", *files], capture_output=True, check=True)
        self.assertTrue(run.stdout.startswith(b"<!doctype html>"))
        self.assertEqual(run.stderr, b"")
