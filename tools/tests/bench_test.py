"""What the benches share: words, figures, readers, workloads and peers."""

import contextlib
import io
import subprocess
import tempfile
import unittest
from pathlib import Path
from typing import NamedTuple

from qpbench.asking import Unread, words_of
from qpbench.calls import LONG, Took, Wrong, call, least, peak
from qpbench.figures import Figures, short
from qpbench.journals import copy_of_qv, lanes_in, need_order, records_in
from qpbench.mixing import sources_mix
from qpbench.peers import C_COMPILERS, compiler, count_of, counted_in, counting, peer
from qpbench.rings import EVENTS
from qpbench.workloads import WORKLOADS, Workload, adding, countdown, ring, sixteen
from qptools.program import TOP, is_built, program
from qpviewer.journal import read_journal

RECORDS = 3_000
JOURNAL = "qp 1 0 9\nlane 0\nbegin 1\nenter 1 1\ndone 1\nlane 1\nstim 0 1 1\nend 0\n"


class Words(unittest.TestCase):
    """What a call of a bench asks for."""

    def test_words(self) -> None:
        read = words_of(["--before", "/tmp/qp", "--tries", "3", "--records", "70", "deep"], "--records", 9, ("flat", "deep"))
        self.assertEqual(read, (None, Path("/tmp/qp"), 3, 70, ["deep"]))

    def test_left_out(self) -> None:
        self.assertEqual(words_of([], "--records", 9, ("flat", "deep")), (None, None, 5, 9, ["flat", "deep"]))

    def test_no_such_words(self) -> None:
        for words in (["--posts", "3"], ["--tries"], ["--tries", "0"], ["--tries", "-1"], ["--tries", "³"], ["dee"]):
            with self.subTest(words), self.assertRaises(Unread):
                words_of(words, "--records", 9, ("flat", "deep"))


class Counts(unittest.TestCase):
    """Figures beside what is asked of them, and the least of several tries."""

    def test_met_and_missed(self) -> None:
        figures, said = Figures(), io.StringIO()
        with contextlib.redirect_stdout(said):
            figures.begin("deep")
            figures.ask("bytes", 25, most=25)
            figures.ask("bytes", 26, most=25)
            figures.ask("times", 0.5, least=0.5)
            figures.ask("times", 0.49, least=0.5)
            figures.ask("told", 7)
            status = figures.end()
        self.assertEqual(status, 1)
        self.assertEqual(figures.missed, ["deep: bytes: 26, at most 25", "deep: times: 0.490, at least 0.5"])
        self.assertEqual([line.split()[-1] for line in said.getvalue().splitlines()[1:6]], ["met", "missed", "met", "missed", "7"])

    def test_numbers(self) -> None:
        self.assertEqual([short(value) for value in (0.0123, 1.234, 12.34, 1234.5, 0, 3)], ["0.012", "1.23", "12.3", "1,234", "0", "3"])

    def test_least(self) -> None:
        """Field by field; a call that takes long is made once."""
        quick, slow = iter([Took(3, 4, ""), Took(2, 6, ""), Took(5, 5, "")]), iter([Took(1, LONG + 1, "")])
        found = least(3, {"quick": lambda: next(quick), "slow": lambda: next(slow)})
        self.assertEqual((found["quick"][:2], found["slow"][:2]), ((2, 4), (1, LONG + 1)))

    def test_a_call(self) -> None:
        with tempfile.TemporaryDirectory() as folder:
            at = Path(folder)
            took = call(["sh", "-c", "echo out; echo note >&2; exit 3"], at, at / "out", 3)
            self.assertEqual((took.note, (at / "out").read_text()), ("note", "out\n"))
            self.assertGreater(peak(["sh", "-c", "exit 3"], at, at / "out", 3), 100_000)
            with self.assertRaises(Wrong):
                call(["sh", "-c", "exit 3"], at, at / "out")


class Readers(unittest.TestCase):
    """Records, lanes and orders as they are counted."""

    def setUp(self) -> None:
        made = tempfile.TemporaryDirectory()
        self.addCleanup(made.cleanup)
        self.folder = Path(made.name)
        (self.folder / "journal").write_text(JOURNAL)

    def test_counts(self) -> None:
        self.assertEqual((records_in(self.folder / "journal"), lanes_in(self.folder / "journal")), (4, 2))

    def test_copy_of_qv(self) -> None:
        copy_of_qv(self.folder / "journal", self.folder / "qv")
        head, lines = JOURNAL.split("\n", 1)
        self.assertEqual((self.folder / "qv").read_text(), f"qp 2 3 {head.split()[3]}\n{lines}")

    def test_orders(self) -> None:
        for text, is_right in (("order 2\n0 0\n0 1\n", True), ("order 2\n0 0\n", False), ("cycle 2\n0 0\n0 1\n", False), ("", False)):
            with self.subTest(text):
                (self.folder / "order").write_text(text)
                self.assertEqual(need_order(self.folder / "order", 2) == "", is_right)


class Mixing(unittest.TestCase):
    """Whether posts of one source stand between those of another."""

    @staticmethod
    def journal(kernel: int, *sources: tuple[int, ...]) -> bytes:
        """A journal in which each source posts to queue 1, as its so many-th entries."""
        homes = "lane 1\n" if kernel == 2 else ""
        first = 2 if kernel == 2 else 1
        lanes = "".join(f"lane {lane}\n" + "".join(f"stim 0 {k} 0\npost 0 1 {number} 0 0 0 4 0\n" for k, number in enumerate(of, 1))
                        for lane, of in enumerate(sources, first))
        return f"qp 1 {kernel} 9\nlane 0\n{homes}{lanes}end 0\n".encode()

    def test_mixing(self) -> None:
        for sources, mixes in ((((1, 3), (2, 4)), True), (((1, 4), (2, 3)), True), (((1, 2), (3, 4)), False), (((3, 4), (1, 2)), False),
                               (((1, 2, 3),), False), (((1,), (2,), (3,)), False), (((), (1, 2)), False), (((1, 2), (5, 6), (3, 7)), True)):
            for kernel in (1, 2):
                with self.subTest(sources, kernel=kernel):
                    self.assertEqual(sources_mix(read_journal(self.journal(kernel, *sources)), 1), mixes)


class Kind(NamedTuple):
    """A workload, the kernel under which it runs, and at most how many records it has, or 0."""

    work: Workload
    kernel: str
    records: int = 0


def kinds() -> dict[str, Kind]:
    made = {name: Kind(of(RECORDS), "sim", RECORDS) for name, of in WORKLOADS.items()}
    made.update({"sixteen": Kind(sixteen(RECORDS), "port", RECORDS + 500), "sum": Kind(adding(8, 9), "wait"),
                 "ring": Kind(ring(3, 20, EVENTS), "wait"), "countdown": Kind(countdown(5, 31), "wait")})
    return made


@unittest.skipUnless(is_built(), "the program isn't built")
class Runs(unittest.TestCase):
    """Workloads by the program, and the same by the peers."""

    folder: Path

    def setUp(self) -> None:
        made = tempfile.TemporaryDirectory()
        self.addCleanup(made.cleanup)
        self.folder = Path(made.name)
        found = program()
        assert found
        self.program = found

    def run_of(self, kind: Kind, output: str) -> None:
        kind.work.write(self.folder)
        call(kind.work.run(self.program, "--kernel", kind.kernel), self.folder, self.folder / output, kind.work.status)

    def need_lawful(self, journal: str) -> None:
        call([self.program, "check", "system", "stimuli", journal], self.folder, self.folder / "verdict")

    def test_each_ends_as_it_says(self) -> None:
        for name, kind in kinds().items():
            with self.subTest(name):
                self.run_of(kind, "journal")
                self.need_lawful("journal")
                if kind.records:
                    self.assertLessEqual(0.8 * RECORDS, records_in(self.folder / "journal"))
                    self.assertLessEqual(records_in(self.folder / "journal"), kind.records)

    @unittest.skipUnless(compiler(), "there is no compiler for C++")
    def test_the_simulator_prints_the_same(self) -> None:
        native = peer("sim", self.folder)
        assert native
        for name, of in WORKLOADS.items():
            for records in (800, RECORDS, 20_000):
                with self.subTest(name, records=records):
                    work = of(records)
                    self.run_of(Kind(work, "sim"), "journal")
                    call([native, *work.peer], self.folder, self.folder / "peer")
                    self.assertEqual((self.folder / "peer").read_bytes(), (self.folder / "journal").read_bytes())

    @unittest.skipUnless(compiler(), "there is no compiler for C++")
    def test_journals_of_the_peer_with_threads_are_lawful(self) -> None:
        native = peer("threads", self.folder)
        assert native
        for work in (ring(2, 500, 4), ring(4, 300, 4), ring(3, 1, 1), adding(1, 4), adding(8, 103), adding(3, 3)):
            with self.subTest(work.peer):
                work.write(self.folder)
                for _ in range(3):
                    call([native, *work.peer], self.folder, self.folder / "journal")
                    self.need_lawful("journal")

    @unittest.skipUnless(compiler() and compiler(C_COMPILERS), "there is no compiler")
    def test_threads_are_counted(self) -> None:
        native, library = peer("threads", self.folder), counting(self.folder)
        assert native and library
        counted = self.folder / "counted"
        for words, threads in ((["ring", "5", "3", "1"], 6), (["sum", "8", "4"], 9)):
            call([native, *words], self.folder, self.folder / "journal", settings=counted_in(library, counted))
            self.assertEqual(count_of(counted), threads)
        call(["true"], self.folder, self.folder / "journal", settings=counted_in(library, counted))
        self.assertEqual(count_of(counted), 0)


@unittest.skipUnless(is_built(), "the program isn't built")
class Benches(unittest.TestCase):
    """Each bench in small: it prints its figures, whether they are met or not."""

    def test_small(self) -> None:
        for words, first in ((["sim", "--records", "3000", "flat"], "flat, "), (["check", "--records", "2000", "deep"], "deep, "),
                             (["check", "--records", "3000", "sixteen", "lamps", "hostile"], "sixteen objects of port, "),
                             (["replay", "--records", "3000", "publish"], "publish, "), (["journals", "--records", "3000", "timers"], "timers, "),
                             (["sum", "--posts", "9", "wait"], "sim, "), (["threads", "--rings", "--posts", "200", "2"], "a ring of 2 objects, port")):
            with self.subTest(words):
                before = ["--before", program() or ""]
                place = 2 if "--rings" in words else 1
                ran = subprocess.run([TOP / "bench" / words[0], *words[1:place], *before, "--tries", "1", *words[place:]], capture_output=True, text=True)
                self.assertIn(ran.returncode, (0, 1), ran.stderr)
                self.assertIn(f"\n{first}", f"\n{ran.stdout}")
                self.assertRegex(ran.stdout, r"(?m)^missed: |^each figure is as is asked of it$")
                self.assertRegex(ran.stdout, "from before +[0-9]")


if __name__ == "__main__":
    unittest.main()
