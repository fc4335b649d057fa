"""Starts come first: journals in which they do and don't, written by hand, and journals of runs."""

import tempfile
import unittest
from pathlib import Path

from qptools.program import TOP, call, is_built
from qptools.starts import late_start
from qpviewer.journal import read_journal

#: The kernels with their numbers in a journal.
NUMBERS = {"sim": 0, "qk": 1, "port": 2}


def journal(kernel: str, *lanes: str, end: int = 0) -> bytes:
    """A journal of these lanes, each its records divided by `; `."""
    told = "".join(f"lane {number}\n" + "".join(f"{record}\n" for record in lane.split("; ") if record) for number, lane in enumerate(lanes))
    return f"qp 1 {NUMBERS[kernel]} 100\n{told}end {end}\n".encode()


class Starts(unittest.TestCase):
    """One object that subscribes to signal 4 in its start, or two of which one posts to the other, and a source."""

    def late(self, objects: int, data: bytes) -> str | None:
        found = late_start(read_journal(data), objects)
        if found is None:
            return None
        return ", ".join([f"{found.word}: {found.start.record.text} in lane {found.start.lane}", f"{found.other.record.text} in lane {found.other.lane}"])

    def test_a_publication_that_reaches_nobody(self) -> None:
        start = "begin 1; sub 1 4 0; enter 1 1; done 1"
        late = "('signal', 4): sub 1 4 0 in lane {}, pub 0 4 0 0 in lane {}"
        self.assertEqual(self.late(1, journal("qk", start, "stim 0 1 0; pub 0 4 0 0")), late.format(0, 1))
        self.assertEqual(self.late(1, journal("port", "", start, "stim 0 1 0; pub 0 4 0 0")), late.format(1, 2))
        self.assertIsNone(self.late(1, journal("qk", start, "stim 0 1 0; pub 0 4 1 1; post 0 1 1 0 0 0 4 0")))
        self.assertIsNone(self.late(1, journal("port", "", start, "stim 0 1 0; pub 0 4 1 1; post 0 1 1 0 0 0 4 0")))

    def test_a_stimulus_before_a_start(self) -> None:
        start = "begin 2; post 2 1 2 0 0 0 4 0; enter 2 1; done 2"
        lanes = ["", "begin 1; done 1; took 1 1 0 1 0 4 0; none 1; done 1", start, "stim 0 1 0; post 0 1 1 0 0 0 4 0"]
        self.assertEqual(self.late(2, journal("port", *lanes)), "('queue', 1): post 2 1 2 0 0 0 4 0 in lane 2, post 0 1 1 0 0 0 4 0 in lane 3")

    def test_a_take_before_a_start(self) -> None:
        """The post of the second start finds that the first object has taken what a third posted."""
        lanes = ["", "begin 1; done 1; took 1 1 0 1 0 4 0; none 1; done 1", "begin 2; post 2 1 2 0 1 0 4 0; done 2", "begin 3; post 3 1 1 0 0 0 4 0; done 3", ""]
        self.assertEqual(self.late(3, journal("port", *lanes)), "('queue', 1): post 2 1 2 0 1 0 4 0 in lane 2, took 1 1 0 1 0 4 0 in lane 1")

    def test_what_a_start_saw_is_no_matter(self) -> None:
        """A start that only shows a word changes nothing of it."""
        lanes = ["", "begin 1; done 1", "begin 2; full 2 1 2 0 0 0; done 2", "stim 0 1 0; post 0 1 1 0 0 0 4 0; stim 0 2 0; post 0 1 2 0 0 0 4 0"]
        self.assertIsNone(self.late(2, journal("port", *lanes)))

    def test_all_starts_of_a_kernel_stand_in_its_lane(self) -> None:
        two = "begin 1; sub 1 4 0; done 1; begin 2; sub 2 4 1; done 2"
        self.assertEqual(self.late(2, journal("qk", two, "stim 0 1 0; pub 0 4 1 1")), "('signal', 4): sub 2 4 1 in lane 0, pub 0 4 1 1 in lane 1")
        self.assertIsNone(self.late(1, journal("qk", two, "stim 0 1 0; pub 0 4 1 1")), "a later step may subscribe")
        self.assertIsNone(self.late(2, journal("sim", two + "; look 0 1 0; stim 0 1 1; pub 0 4 2 3")))

    def test_a_start_that_breaks_off(self) -> None:
        """All of its lane is a start, and the run stops."""
        self.assertIsNone(self.late(2, journal("port", "", "begin 1; sub 1 4 0; done 1", "begin 2; sub 2 4 1; assert 2 4 5 0 0", "", end=3)))

    @unittest.skipUnless(is_built(), "the program isn't built")
    def test_runs(self) -> None:
        with tempfile.TemporaryDirectory() as folder:
            Path(folder, "stimuli").write_text("source 1\npublish LEVEL(5)\nsource 2\npost switch GO\n")
            for kernel in ("sim", "qv", "qk", "port", "wait"):
                for _ in range(5):
                    with self.subTest(kernel):
                        answer = call(["run", "--kernel", kernel, str(TOP / "examples/tour/publish.toml"), str(Path(folder, "stimuli"))], 60)
                        self.assertEqual((answer.status, answer.note), (0, ""))
                        self.assertIsNone(self.late(3, answer.output))

