"""Runs as text, and two runs beside each other."""

import re
import subprocess
import unittest

from qpviewer.beside import beside_page, beside_text, parting
from qpviewer.journal import read_journal
from qpviewer.run_text import records_text, run_text
from qpviewer.story import Story
from qpviewer.system import read_system
from support import EXAMPLES, VIEW, examples, read, runs


class Texts(unittest.TestCase):
    """Runs as text."""

    def lines(self, name: str) -> list[str]:
        return run_text(Story(*read((runs() | examples())[name]))).splitlines()

    def test_a_run_of_one_event(self) -> None:
        self.assertEqual(self.lines("switched"), [
            "kernel sim, budget 100000", "lamp starts: +off", "source 1 post lamp GO: posts GO to lamp",
            "lamp takes GO: off row 1; -off; +on", "end 0: ended quietly", "lamp took 1, on",
        ])

    def test_interrupting_steps_stand_in(self) -> None:
        lines = self.lines("preempted")
        self.assertEqual([line for line in lines if line.startswith("  ")],
                         ["  top takes X: no state handles it", "  top takes X: no state handles it", "  three takes X: no state handles it"])
        self.assertIn("low takes GO: s row 1; posts X to top; ceiling 3; posts X to three; posts X to top; says 1; ceiling 0; says 2", lines)

    def test_a_settle_stands_where_it_saw_the_queues_empty(self) -> None:
        """With threads it begins before what it waits for."""
        lines = self.lines("philosophers-port")
        at = lines.index("source 1 settle")
        self.assertTrue(lines[at + 1].startswith("source 1 tick 0: "))
        self.assertEqual(sum(": thinking row 1; " in line for line in lines[:at]), 5)

    def test_refusals_and_stops_are_loud(self) -> None:
        for name, words in (("crowded-out", "ASSERTS: the queue of lamp is full; CUT OFF"), ("short-of-blocks", "IS REFUSED: pool 1"),
                            ("refused-post", "IS REFUSED by the queue of lamp"), ("out-of-budget", "lamp: HAS SPENT ITS BUDGET"),
                            ("varied-calls", "CAN'T DEFER"), ("cut-in-publication", "CUT OFF")):
            with self.subTest(name):
                self.assertTrue(any(words in line for line in self.lines(name)), self.lines(name))

    def test_a_refused_post_names_its_event(self) -> None:
        """Where it has a block: an event without one leaves no trace in the record."""
        files = (EXAMPLES / "tour" / "switch.toml", EXAMPLES / "tour" / "switch.txt", EXAMPLES / "go.txt")
        call = "new 2 1 0 0 0 5 7\ninc 2 1 0 0\nfull 2 1 2 0 0 0\ndec 2 1 0 1 0\nback 2 1 1 0 2\nfull 2 1 2 0 0 0\n"
        text = f"qp 1 0 100000\nlane 0\nbegin 1\ndone 1\nbegin 2\n{call}done 2\nend 0\n"
        told = run_text(Story(*read(files, text.encode())))
        refused = "which IS REFUSED by the queue of lamp, margin 0"
        self.assertIn(f"switch starts: posts LEVEL(7), {refused}; posts an event, {refused}; pool 1 has 2 free\n", told)

    def test_an_object_without_a_deferred_list_is_told_so(self) -> None:
        """That is another slip than a list which is too short."""
        files = (EXAMPLES / "tour" / "defer.toml", EXAMPLES / "tour" / "defer.txt", EXAMPLES / "go.txt")
        journal = read_journal(b"qp 1 0 100000\nlane 0\nbegin 1\nnodefer 1\ndone 1\nend 0\n")
        for text, why in (("defer = 1", "its deferred list is full"), ("defer = 0", "it has no deferred list")):
            system = read_system(files[0].read_bytes().replace(b"defer = 1", text.encode()))
            self.assertIn(f"lamp starts: CAN'T DEFER: {why}\n", run_text(Story(system, [], journal)))

    def test_each_step_and_stimulus_has_a_line(self) -> None:
        for name, files in (runs() | examples()).items():
            with self.subTest(name):
                story = Story(*read(files))
                lines = run_text(story).splitlines()
                begun = [record for _, record in story.records() if record.word in ("begin", "took", "stim")]
                own = [line for line in lines[1:] if re.match(r" *\w+ (starts|takes)|source \d+ ", line)]
                self.assertGreaterEqual(len(own), len(begun))

    def test_records_have_a_line_each(self) -> None:
        for name, files in (runs() | examples()).items():
            with self.subTest(name):
                story = Story(*read(files))
                lines = records_text(story).splitlines()
                self.assertEqual([line.split("  ")[0].split(" ", 1)[0] for line in lines], [str(lane) for lane, _ in story.records()])
                self.assertEqual(len(lines), len(story.order.places))

    def test_the_words_of_a_call(self) -> None:
        files = [str(file) for file in runs()["switched"]]
        for option in ("--text", "--records"):
            run = subprocess.run([VIEW / "qpview", option, *files], capture_output=True, text=True, check=True)
            self.assertIn("lamp", run.stdout)
            self.assertEqual(subprocess.run([VIEW / "qpview", option, *files, "lawful"], capture_output=True).returncode, 1)


class Beside(unittest.TestCase):
    """Two runs of one system."""

    def stories(self, change: tuple[str, str] | None = None, name: str = "philosophers") -> tuple[Story, Story]:
        files = examples()[name]
        text = files[2].read_text()
        if change:
            self.assertIn(change[0], text)
            text = text.replace(change[0], change[1], 1)
        return Story(*read(files)), Story(*read(files, text.encode()))

    def test_the_same(self) -> None:
        for name in examples():
            one, other = self.stories(name=name)
            self.assertIsNone(parting(one, other))
            self.assertEqual(beside_text(one, other, ("a", "b")), "the runs are the same\n")

    def test_where_they_part(self) -> None:
        text = examples()["philosophers"][2].read_text()
        line = next(line for line in text.splitlines() if line.startswith("look 0 5 "))
        one, other = self.stories((line, f"{line[:-1]}9"))
        first, second = parting(one, other) or (-1, -1)
        self.assertEqual(first, second)
        self.assertEqual(one.records()[first][1].text, line)
        self.assertTrue(beside_text(one, other, ("a", "b")).startswith(f"a: record {first + 1}, line {text.splitlines().index(line) + 1}: kernel begins look 5"))

    def test_a_run_that_ends_earlier(self) -> None:
        files = examples()["philosophers"]
        lines = files[2].read_text().splitlines()
        last = lines.index("lane 1")
        shorter = "\n".join([*lines[:last - 1], *lines[last:]]) + "\n"
        one, other = Story(*read(files)), Story(*read(files, shorter.encode()))
        first, _ = parting(one, other) or (-1, -1)
        self.assertGreater(first, 0)

    def test_lanes_of_threads_are_compared_lane_by_lane(self) -> None:
        text = examples()["philosophers-port"][2].read_text()
        line = next(line for line in text.splitlines() if line.startswith("run "))
        one, other = self.stories((line, "run 1 1 9"), "philosophers-port")
        first, second = parting(one, other) or (-1, -1)
        self.assertEqual((one.records()[first][1].text, other.records()[second][1].text), (line, "run 1 1 9"))

    def test_the_page(self) -> None:
        one, other = self.stories()
        page = beside_page(one, other, ("s.toml", "s.txt", "a.txt", "b.txt"))
        self.assertIn("The runs are the same.", page)
        self.assertEqual(page.count("<iframe"), 2)

    def test_the_words_of_a_call(self) -> None:
        files = list(map(str, examples()["philosophers"]))
        for words, status in ((["--parted", *files, files[2]], 0), (["--parted", *files], 1), (["--beside", *files, "lost.txt"], 2)):
            ran = subprocess.run([VIEW / "qpview", *words], capture_output=True, text=True)
            self.assertEqual(ran.returncode, status, ran.stderr)
