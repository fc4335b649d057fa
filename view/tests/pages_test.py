"""The pages of journals: each record stands once, and what is drawn of some of them."""

import json
import re
import unittest
from pathlib import Path
from typing import Any

from qpviewer.chart_layout import Box, lay_out
from qpviewer.page import page_of
from qpviewer.run_text import run_text
from qpviewer.story import Story
from qpviewer.system import read_system
from support import EXAMPLES, WITHOUT_ORDER, Reader, defects, examples, lanes_of, read, runs


class Pages(unittest.TestCase):
    """The pages of journals."""

    def check(self, files: tuple[Path, Path, Path], journal: bytes | None = None) -> dict[str, Any]:
        """Each record stands in the page once, in its lane's order, and the page needs nothing else."""
        system, stimuli, value = read(files, journal)
        page = Reader(page_of(Story(system, stimuli, value), tuple(map(str, files))))
        lanes: list[list[str]] = [[] for _ in value.lanes]
        for line in page.scripts["record-lines"].strip("\n").splitlines():
            lane, record = line.split(" ", 1)
            lanes[int(lane)].append(record)
        self.assertEqual(lanes, lanes_of((journal or files[2].read_bytes()).decode()))
        self.assertEqual(page.fetched, [])
        self.assertEqual(len(page.ids), len(set(page.ids)), "an id stands twice")
        model = json.loads(page.scripts["model"])
        self.assertEqual(len(model["rowOf"]), sum(map(len, lanes)))
        self.assertTrue(all(0 <= row < len(model["rows"]) for row in model["rowOf"]))
        self.assertEqual(model["columns"], sorted(model["columns"]))
        self.assertEqual([change[1] for change in model["changes"]], sorted(change[1] for change in model["changes"]))
        return model

    def test_every_lawful_journal(self) -> None:
        self.assertGreaterEqual(len(runs()), 43)
        for name, files in (runs() | examples()).items():
            with self.subTest(name):
                model = self.check(files)
                self.assertEqual(bool(model["against"]), name in WITHOUT_ORDER)

    def test_every_defect(self) -> None:
        known = runs() | runs("beside.txt")
        self.assertGreaterEqual(len(defects()), 118)
        for name, run, journal in defects():
            with self.subTest(name):
                self.check(known[run], journal.encode())

    def test_lanes_keep_their_order(self) -> None:
        for name, files in (runs() | examples()).items():
            with self.subTest(name):
                system, stimuli, journal = read(files)
                order = Story(system, stimuli, journal).order
                for lane, records in enumerate(journal.lanes):
                    own = [(at, order.columns[k]) for k, (of, at) in enumerate(order.places) if of == lane]
                    self.assertEqual([at for at, _ in own], list(range(len(records))))
                    columns = [column for _, column in own]
                    self.assertEqual(columns, sorted(set(columns)), "two records of a lane in one column")


class Told(unittest.TestCase):
    """What is drawn of journals."""

    def story(self, name: str) -> Story:
        return Story(*read((runs() | examples())[name]))

    def test_philosophers(self) -> None:
        story = self.story("philosophers")
        lines = {line[0]: line for line in story.object_lines()}
        self.assertEqual({name: line[4] for name, line in lines.items()},
                         {"ann": "5", "bob": "5", "cat": "6", "dan": "5", "eve": "6", "table": "12"})
        self.assertEqual(lines["bob"][8], "hungry")
        self.assertEqual(lines["table"][7], "1 of 5")
        self.assertEqual([line[4:] for line in story.pool_lines()], [["4", "4"], ["7", "6"]])
        takes = [record for _, record in story.records() if record.word == "took"]
        self.assertEqual(len(story.words.arrows), len(takes))

    def test_preemption(self) -> None:
        steps = self.story("preempted").steps
        depths = [(step.object, step.depth, len(step.pauses)) for step in steps.steps if step.label >= 0]
        self.assertEqual(depths, [(1, 0, 3), (4, 1, 0), (4, 1, 0), (3, 1, 0)])
        self.assertEqual([ceiling.ceiling for ceiling in steps.ceilings], [3])

    def test_exits_and_entries(self) -> None:
        steps = [step for step in self.story("walked").steps.steps if step.label >= 0]
        self.assertEqual((steps[0].exits, steps[0].entries, steps[0].after), ([6], [6], 6))
        self.assertTrue(any(step.inits for step in steps))

    def test_publication_fans_out(self) -> None:
        story = self.story("heard-by-three")
        fan = [arrow for arrow in story.words.arrows if arrow[3] == 1]
        self.assertEqual(len(fan), 3)
        self.assertEqual(len({arrow[0] for arrow in fan}), 1)

    def test_marks(self) -> None:
        for name, word in (("refused-post", "full"), ("short-of-blocks", "short"), ("varied-calls", "nodefer"),
                           ("crowded-out", "assert"), ("out-of-budget", "spent")):
            with self.subTest(name):
                self.assertIn(word, [mark for _, mark in self.story(name).steps.marks])

    def test_cut_step(self) -> None:
        self.assertTrue(self.story("cut-in-publication").steps.steps[-1].cut)
        self.assertFalse(any(step.cut for step in self.story("preempted").steps.steps))

    def test_a_step_that_is_interrupted_at_the_end_stays_so(self) -> None:
        """Where the run ends within a step, those that it interrupted wait to their last record."""
        for name in ("cut-in-publication", "cut-under-ceiling", "overfull"):
            with self.subTest(name):
                cut = [step for step in self.story(name).steps.steps if step.cut]
                self.assertGreaterEqual(len(cut), 2)
                for step, above in zip(cut, cut[1:]):
                    self.assertEqual(step.pauses[-1], [above.first, step.last])
        self.assertEqual(cut[-1].pauses, [])

    def test_stops(self) -> None:
        """Where a run was stopped, and who and why in words."""
        table = {
            "crowded-out": ("lamp", "asserts: the queue of lamp is full"),
            "out-of-blocks": ("lamp", "asserts: pool 1 has no free block"),
            "out-of-budget": ("lamp", "has spent its budget"),
            "armed-without-ticks": ("lamp", "asserts: lamp.B can't have 0 ticks and interval 0"),
        }
        for name, told in table.items():
            with self.subTest(name):
                story = self.story(name)
                self.assertEqual(story.in_words(story.stop()), told)
        self.assertIsNone(self.story("switched").stop())

    def test_a_full_lane_stops_a_run(self) -> None:
        """Who filled it, the kernel or a source, stands in the page's head, with a link to the record at which the page opens."""
        start = "begin 1\nenter 1 1\ndone 1\n"
        table = {
            "kernel": f"qp 1 0 100000\nlane 0\n{start}spill 0 3\nlane 1\nend 4\n",
            "source 1": f"qp 1 1 100000\nlane 0\n{start}lane 1\nstim 0 1 0\npost 0 1 1 0 0 0 4 0\nspill 0 2\nend 4\n",
        }
        files = (EXAMPLES / "lamp.toml", EXAMPLES / "go.txt", EXAMPLES / "go.txt")
        for who, text in table.items():
            with self.subTest(who):
                story = Story(*read(files, text.encode()))
                stop = story.stop()
                self.assertEqual(story.records()[stop][1].word, "spill")
                page = page_of(story, tuple(map(str, files)))
                words = "stops: the lane is full with [23] records"
                self.assertRegex(page, rf'class="stop"><b>{who}</b> {words}, at <a href="#record={stop + 1}">')
                self.assertEqual(json.loads(Reader(page).scripts["model"])["opensAt"], stop)
                self.assertRegex(run_text(story), rf"(?m)^{who}.*: STOPS: the lane is full|; STOPS: the lane is full")

    def test_said_values_belong_to_their_step(self) -> None:
        said = [step.said for step in self.story("varied-calls").steps.steps if step.said]
        self.assertTrue(said)
        self.assertTrue(all(value.lstrip("-").isdigit() for values in said for value in values))

    def test_lines_of_records(self) -> None:
        for name, files in (runs() | examples()).items():
            with self.subTest(name):
                lines = files[2].read_text().splitlines()
                story = Story(*read(files))
                for index, (_, record) in enumerate(story.records()):
                    self.assertEqual(lines[story.line_of(index) - 1], record.text)

    def test_rows_of_threads(self) -> None:
        """Under `qk` lane 0 has the rows of the kernel and of all objects; under `port` each object's row is a lane."""
        objects = ["table", "eve", "dan", "cat", "bob", "ann"]
        for name, rows, lanes in (("philosophers-qk", [*objects, "kernel", "source 1"], [0] * 7 + [1]),
                                  ("philosophers-port", [*objects, "source 1"], [6, 5, 4, 3, 2, 1, 7])):
            with self.subTest(name):
                story = self.story(name)
                self.assertEqual([row.name for row in story.rows.rows], rows)
                met = {(story.rows.row_of(lane, record.numbers[0]), lane) for lane, record in story.records()}
                self.assertEqual(met, set(enumerate(lanes)))

    def test_threads_stand_beside_one_another(self) -> None:
        """In columns, what one thread does overlaps with what another one does; with one thread no two records share a column."""
        for name, is_beside in (("philosophers", False), ("philosophers-qk", True), ("philosophers-port", True)):
            with self.subTest(name):
                columns = self.story(name).order.columns
                self.assertEqual(len(set(columns)) < len(columns), is_beside)

    def test_a_queue_is_found_empty_by_its_own_thread(self) -> None:
        story = self.story("philosophers-port")
        nils = [(lane, record.numbers[0]) for lane, record in story.records() if record.word == "nil"]
        self.assertTrue(nils)
        self.assertTrue(all(lane == of for lane, of in nils))
        self.assertFalse([record for _, record in self.story("philosophers-qk").records() if record.word == "nil"])

    def test_starts_stand_first_in_threads(self) -> None:
        story = self.story("crossed-settles")
        words = [record.word for _, record in story.records()]
        self.assertLess(max(k for k, word in enumerate(words) if word == "enter"), words.index("stim"))

    def test_rows_have_their_counts(self) -> None:
        """Behind each row stands how often the run took it."""
        files = examples()["philosophers"]
        page = page_of(Story(*read(files)), tuple(map(str, files)))
        rows = re.findall(r'<text class="(row[^"]*)"[^>]*>([^<]*· (?:[0-9]+×|never))<', page)
        taken = sum(int(words.rsplit(" ", 1)[1][:-1]) for look, words in rows if "never" not in look)
        self.assertEqual(taken, len(re.findall(r"^[0-9]+ run ", page, re.M)))
        self.assertTrue(all(("never" in look) == words.endswith("never") for look, words in rows))
        files = runs()["left-alone"]
        self.assertIn("· never<", page_of(Story(*read(files)), tuple(map(str, files))))

    def test_boxes_of_charts_part_or_nest(self) -> None:
        for name, files in (runs() | examples()).items():
            for chart in read_system(files[0].read_bytes()).charts.values():
                with self.subTest(name, chart=chart.name):
                    boxes = lay_out(chart, 0).boxes
                    for box in boxes:
                        for other in boxes:
                            if box is not other:
                                self.assertTrue(parted(box, other) or within(box, other) or within(other, box))


def parted(box: Box, other: Box) -> bool:
    return box.y + box.height < other.y or other.y + other.height < box.y


def within(box: Box, other: Box) -> bool:
    return (other.x < box.x and box.right < other.right and other.y < box.y
            and box.y + box.height < other.y + other.height)
