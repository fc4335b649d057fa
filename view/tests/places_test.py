"""Verdicts, and the places of what they say."""

import difflib
import re
import subprocess
import tempfile
import unittest
from collections import Counter
from pathlib import Path

from qpviewer.course_places import course_failure
from qpviewer.faults import Fault
from qpviewer.journal import PORT, Journal
from qpviewer.place import place_of, record_of
from qpviewer.story import Story
from qpviewer.system_parts import System
from qpviewer.verdict import read_verdict, verdict_words
from qpviewer.word_places import WordPlaces
from support import EXAMPLES, JUDGED, VIEW, WITHOUT_ORDER, defects, examples, read, runs


class Verdicts(unittest.TestCase):
    """Where a verdict says to look first."""

    def test_texts(self) -> None:
        self.assertIsNone(read_verdict("lawful\n"))
        for text in ("broken D9 queue 1", "broken D12 block 1 0", "broken D21 whole", "broken D19 lane 0"):
            with self.subTest(text):
                self.assertEqual(read_verdict(f"qp: {text}\n").text, text)
        for text in ("", "broken", "broken D8 queue 1", "broken D9 queue", "broken D12 block 1", "broken D21 whole 1"):
            with self.subTest(text), self.assertRaises(Fault):
                read_verdict(text)

    def test_words(self) -> None:
        names = Story(*read(examples()["philosophers"])).names
        self.assertIn("the queue of bob: ", verdict_words(read_verdict("broken D13 queue 2"), names))
        self.assertIn("time event ann.T: ", verdict_words(read_verdict("broken D18 timer 1"), names))

    def test_most_defects_are_found_where_they_were_made(self) -> None:
        """In most defects of the judge's tests the record to look at first is one that was changed, or stands beside it."""
        known = runs() | runs("beside.txt")
        near = 0
        for name, run, journal in defects():
            with self.subTest(name):
                system, stimuli, value = read(known[run], journal.encode())
                story = Story(system, stimuli, value)
                if place := record_of(read_verdict(verdicts()[name]), story):
                    index = place[0]
                    line, changed = story.line_of(index), changed_lines(known[run][2].read_text(), journal)
                    near += any(abs(line - other) <= 2 for other in changed)
        self.assertGreaterEqual(near, 110)

    def test_nothing_is_suspected_in_lawful_journals(self) -> None:
        for name, files in (runs() | examples()).items():
            if name in WITHOUT_ORDER:
                continue
            system, stimuli, journal = read(files)
            story = Story(system, stimuli, journal)
            for verdict in all_verdicts(system, journal):
                if journal.status and verdict.startswith("broken D15"):
                    continue  # lists may be cut there, and where they may the reading of shapes doesn't say
                with self.subTest(name, verdict=verdict):
                    self.assertIsNone(place_of(system, journal, verdict, stimuli))


class Places(unittest.TestCase):
    """The places of verdicts."""

    def first_word(self, system: System, journal: Journal) -> str | None:
        """The first definition that a word fails, with that word, in the judge's order."""
        places = WordPlaces(system, journal)
        for verdict in sorted(map(read_verdict, all_verdicts(system, journal)), key=lambda verdict: int(verdict.definition[1:])):
            if verdict.kind not in ("object", "lane") and places.failure(verdict.definition, verdict.word):
                return verdict.text
        return None

    def test_words_fail_where_the_judge_says(self) -> None:
        """Read a second time, words fail in the defects of words alone, by the judge's definition."""
        known = runs() | runs("beside.txt")
        for name, files in (runs() | examples()).items():
            with self.subTest(name):
                system, _, journal = read(files)
                self.assertIsNone(self.first_word(system, journal))
        for name, run, text in defects():
            with self.subTest(name):
                system, _, journal = read(known[run], text.encode())
                verdict = verdicts()[name]
                of_word = re.fullmatch(r"broken D(9|1[0-4]|16|18) .*", verdict)
                self.assertEqual(self.first_word(system, journal), verdict if of_word else None)

    def test_courses_of_lawful_journals(self) -> None:
        """Followed a second time, every lawful course is what its chart makes of its events."""
        for name, files in (runs() | examples()).items():
            system, _, journal = read(files)
            for owner in system.objects:
                with self.subTest(name, object=owner.name):
                    self.assertIsNone(course_failure(system, journal, owner))

    def test_places_of_defects(self) -> None:
        """Each place is a line of its journal; of words and deferral all are told, of shapes and sources most."""
        known = runs() | runs("beside.txt")
        told: Counter[str] = Counter()
        for name, run, text in defects():
            with self.subTest(name):
                system, stimuli, journal = read(known[run], text.encode())
                verdict = verdicts()[name]
                place = place_of(system, journal, verdict, stimuli)
                definition = verdict.split()[1]
                if place is None:
                    self.assertIn(definition, ("D7", "D15", "D19", "D20", "D21"))
                    continue
                told[definition] += 1
                self.assertEqual(text.splitlines()[place.line_of(place.spot) - 1], place.spot.record.text)
                self.assertIn(place.spot, place.history)
                self.assertTrue(place.text().startswith(f"lane {place.spot.lane}, line {place.line_of(place.spot)}: "))
        self.assertGreaterEqual(told["D7"], 15)
        self.assertGreaterEqual(told["D15"], 27)
        self.assertGreaterEqual(told["D20"], 11)

    def test_the_program(self) -> None:
        lamp, go = str(EXAMPLES / "lamp.toml"), str(EXAMPLES / "go.txt")
        text = "qp 1 0 100000\nlane 0\nbegin 1\nenter 1 1\ndone 1\ntook 1 1 0 1 0 4 0\nend 0\n"
        with tempfile.TemporaryDirectory() as folder:
            journal = Path(folder, "lost.txt")
            journal.write_text(text)
            run = subprocess.run([VIEW / "qpplace", lamp, go, journal, "-"], input=b"qp: broken D9 queue 1\n", capture_output=True)
        self.assertEqual((run.returncode, run.stderr), (0, b""))
        self.assertEqual(run.stdout.splitlines()[:2], [b"lane 0, line 6: took 1 1 0 1 0 4 0", b"  no record draws number 0"])


def verdicts() -> dict[str, str]:
    """The verdict on each defect of the judge's tests."""
    text = (JUDGED / "defects.txt").read_text()
    return dict(re.findall(r"^defect: (.*)\n(?:.*\n)*?verdict: (.*)$", text, re.M))


def changed_lines(before: str, after: str) -> set[int]:
    """The lines of a text that aren't in the one before, and those in whose place something was left out."""
    matcher = difflib.SequenceMatcher(None, before.splitlines(), after.splitlines(), autojunk=False)
    changes = (part for part in matcher.get_opcodes() if part[0] != "equal")
    return {line for _, _, _, first, last in changes for line in range(first + 1, max(last, first + 1) + 1)}


def all_verdicts(system: System, journal: Journal) -> list[str]:
    """A verdict for each definition and each of its sites."""
    sites = {
        "pool": [f"pool {k}" for k in range(1, len(system.pools) + 1)],
        "block": [f"block {k} {b}" for k, pool in enumerate(system.pools, 1) for b in range(pool.blocks)],
        "queue": [f"queue {entry.priority}" for entry in system.objects],
        "signal": [f"signal {signal.number}" for signal in system.signals.values()],
        "timer": [f"timer {event.number}" for event in system.time_events],
        "object": [f"object {entry.priority}" for entry in system.objects],
    }
    words = ["pool", "block", "queue", "signal", "timer"]
    of = {
        "D9": words, "D14": words, "D10": ["pool"], "D11": ["block"], "D12": ["block"], "D13": ["queue"],
        "D16": ["signal"], "D18": ["timer"], "D15": ["object"], "D17": ["object"], "D7": ["object"],
    }
    found = [f"broken {number} {site}" for number, kinds in of.items() for kind in kinds for site in sites[kind]]
    objects = len(system.objects) if journal.kernel == PORT else 0
    found += [f"broken D20 lane {lane}" for lane in range(objects + 1, len(journal.lanes))]
    return found + (["broken D19 lane 0"] if journal.kernel != PORT else [])
