"""What the picture of a run has beside its records: the first view, variables, dropped references; and that long runs are read in linear time."""

import json
import time
import unittest
from unittest import mock

from qpviewer import course_places
from qpviewer.page import page_of
from qpviewer.perfetto import perfetto
from qpviewer.run_text import records_text
from qpviewer.shapes import References
from qpviewer.story import Story
from support import COUNTERS, EXAMPLES, Reader, counters, examples, read, runs
from traces_test import held_by_the_format

#: Rounds of the counters that make 100,000 records, and the processor's seconds that are more than enough for them.
ROUNDS = 9091
SECONDS = 20.0
NAMES = ("counters.toml", "counters.txt", "run.txt")


class FirstView(unittest.TestCase):
    """Where a page opens."""

    def opens_at(self, story: Story) -> int:
        return json.loads(Reader(page_of(story, NAMES)).scripts["model"])["opensAt"]

    def test_at_the_first_stimulus(self) -> None:
        for name, files in examples().items():
            with self.subTest(name):
                story = Story(*read(files))
                words = [record.word for _, record in story.records()]
                self.assertEqual(self.opens_at(story), words.index("stim"))

    def test_at_the_front_where_there_is_no_stimulus(self) -> None:
        files = (EXAMPLES / "lamp.toml", EXAMPLES / "go.txt", EXAMPLES / "go.txt")
        self.assertEqual(self.opens_at(Story(*read(files, b"qp 1 0 100000\nlane 0\nbegin 1\nenter 1 1\ndone 1\nend 0\n"))), 0)

    def test_where_a_run_was_stopped(self) -> None:
        for name in ("crowded-out", "out-of-budget"):
            story = Story(*read(runs()[name]))
            self.assertEqual(self.opens_at(story), story.stop())


class Variables(unittest.TestCase):
    """The values that variables get, replayed from the chart."""

    def changes(self, story: Story) -> list[tuple[int, str, str, str]]:
        found = [change for change in story.model()["changes"] if change[0] == "assigned"]
        return [(index, story.names.object(priority), name, value) for _, index, priority, name, value in found]

    def test_each_value_is_known_behind_its_step_began(self) -> None:
        """A counter adds three in each step, and says what it has then."""
        story = Story(counters(64)[0], [], counters(64)[1])
        changes = self.changes(story)
        self.assertEqual([value for _, name, _, value in changes if name == "c1"], ["3", "6", "9", "12"])
        for index, name, _, value in changes:
            said = next(record for _, record in story.records()[index + 1:] if record.word == "say")
            self.assertEqual((story.names.object(said.numbers[0]), str(said.numbers[1])), (name, value))

    def test_a_journal_that_leaves_its_chart(self) -> None:
        """The variables stand still there, and the page is made nevertheless."""
        system, journal = counters(64)
        lane = journal.lanes[0]
        at = next(k for k, record in enumerate(lane) if record.text == "say 1 6")
        lane[at] = lane[at]._replace(numbers=(1, 7), text="say 1 7")
        story = Story(system, [], journal)
        self.assertEqual([value for _, name, _, value in self.changes(story) if name == "c1"], ["3", "6"])
        self.assertIn("say 1 7", page_of(story, NAMES))


class Dropped(unittest.TestCase):
    """A reference that is dropped as the last one is told so."""

    def test_where_the_block_goes_back(self) -> None:
        """In a lawful journal just those drops are the last ones behind which their lane gives the block back."""
        last = 0
        for name, files in (runs() | examples()).items():
            story = Story(*read(files))
            told = {place: story.in_words(index)[1] for index, place in enumerate(story.order.places)}
            for lane, records in enumerate(story.journal.lanes):
                for at, record in enumerate(records):
                    if record.word == "dec":
                        with self.subTest(name, lane=lane, at=at):
                            pool, block, reference = *record.numbers[1:3], record.numbers[4]
                            is_last = records[at + 1:at + 2] != [] and records[at + 1].word == "back"
                            last += is_last
                            which = "the last reference" if is_last else f"reference {reference}"
                            self.assertEqual(told[lane, at], f"drops {which} of block {pool}.{block}")
        self.assertGreater(last, 20)

    def test_a_reference_that_does_not_stand(self) -> None:
        """Is no last one, whatever is left; so its number is told."""
        files = examples()["philosophers"]
        text = files[2].read_text()
        self.assertIn("dec 1 1 0 23 17\n", text)
        story = Story(*read(files, text.replace("dec 1 1 0 23 17\n", "dec 1 1 0 23 16\n").encode()))
        at = next(index for index, (_, record) in enumerate(story.records()) if record.text == "dec 1 1 0 23 16")
        self.assertEqual(story.in_words(at), ("ann", "drops reference 16 of block 1.0"))

    def test_records_have_it(self) -> None:
        text = records_text(Story(*read(examples()["philosophers"])))
        self.assertRegex(text, r"(?m)^0 dec [0-9 ]+table drops the last reference of block 2\.0$")
        self.assertRegex(text, r"(?m)^0 dec [0-9 ]+eve drops reference 1 of block 1\.0$")


class Long(unittest.TestCase):
    """A run of 100,000 records with many objects, whose variables are replayed."""

    def story(self) -> Story:
        system, journal = counters(ROUNDS)
        return Story(system, [], journal)

    def test_what_objects_share_is_read_once(self) -> None:
        references = mock.Mock(wraps=References.of)
        with mock.patch.object(References, "of", references), mock.patch.object(course_places, "_Events", wraps=course_places._Events) as events:
            system, journal = counters(64)
            story = Story(system, [], journal)
            page_of(story, NAMES)
            records_text(story)
        self.assertEqual((references.call_count, events.call_count), (1, 1))

    def test_a_page(self) -> None:
        begin = time.process_time()
        page = page_of(self.story(), NAMES)
        self.assertLess(time.process_time() - begin, SECONDS)
        model = json.loads(Reader(page).scripts["model"])
        self.assertGreaterEqual(len(model["rowOf"]), 100_000)
        self.assertEqual(sum(change[0] == "assigned" for change in model["changes"]), ROUNDS)
        self.assertEqual(len(model["lastDrops"]), ROUNDS)

    def test_trace_events(self) -> None:
        """They are written in some seconds, and keep the rules of their format."""
        story = self.story()
        begin = time.process_time()
        text = perfetto(story)
        self.assertLess(time.process_time() - begin, SECONDS)
        events = held_by_the_format(self, text)
        self.assertEqual(sum(event["ph"] == "X" for event in events), COUNTERS + 2 * ROUNDS)
        self.assertEqual(sum(event["ph"] == "f" for event in events), ROUNDS)
