"""Runs as trace events."""

import contextlib
import io
import json
import tempfile
import unittest
from bisect import bisect_right
from pathlib import Path
from typing import Any

from qpviewer.command import main
from qpviewer.perfetto import perfetto
from qpviewer.story import Story
from support import examples, read, runs


#: What an event of each phase has.
NEEDED = {
    "M": {"name", "pid", "args"}, "X": {"name", "pid", "tid", "ts", "dur"}, "i": {"name", "pid", "tid", "ts", "s"}, "C": {"name", "pid", "ts", "args"},
    "s": {"id", "name", "pid", "tid", "ts", "cat"}, "f": {"id", "name", "pid", "tid", "ts", "cat", "bp"},
}
Event = dict[str, Any]
Track = tuple[int, int]


def held_by_the_format(test: unittest.TestCase, text: str) -> list[Event]:
    """The events of a text, each with what its phase asks for: slices of a track part or nest, each flow has both of its ends, each within a
    slice, and what a counter counts is a number that isn't negative."""
    events = json.loads(text)["traceEvents"]
    slices: dict[Track, list[tuple[int, int]]] = {}
    flows: dict[int, list[Event]] = {}
    for event in events:
        test.assertLessEqual(NEEDED[event["ph"]], set(event), event)
        test.assertGreaterEqual(event.get("ts", 0), 0)
        if event["ph"] == "X":
            test.assertGreater(event["dur"], 0)
            slices.setdefault((event["pid"], event["tid"]), []).append((event["ts"], event["ts"] + event["dur"]))
        elif event["ph"] in "sf":
            flows.setdefault(event["id"], []).append(event)
        elif event["ph"] == "C":
            test.assertTrue(all(isinstance(value, int) and value >= 0 for value in event["args"].values()), event)
    tracks = {track: outermost(test, parts) for track, parts in slices.items()}
    for begin, end in flows.values():
        test.assertEqual((begin["ph"], end["ph"], begin["name"], begin["cat"]), ("s", "f", end["name"], end["cat"]))
        test.assertLess(begin["ts"], end["ts"])
        for flow in (begin, end):
            own = tracks[flow["pid"], flow["tid"]]
            before = bisect_right(own, flow["ts"], key=lambda part: part[0])
            test.assertTrue(before and flow["ts"] < own[before - 1][1], f"a flow ends in no slice: {flow}")
    return events


def outermost(test: unittest.TestCase, parts: list[tuple[int, int]]) -> list[tuple[int, int]]:
    """The slices of a track that lie in no other, in order."""
    found: list[tuple[int, int]] = []
    open_until: list[int] = []
    for begin, end in sorted(parts, key=lambda part: (part[0], -part[1])):
        while open_until and open_until[-1] <= begin:
            open_until.pop()
        test.assertTrue(not open_until or end <= open_until[-1], "two slices of a track cross")
        if not open_until:
            found.append((begin, end))
        open_until.append(end)
    return found


class Traces(unittest.TestCase):
    """Trace events, held against the rules of their format."""

    def check(self, files: tuple[Path, Path, Path]) -> list[dict[str, Any]]:
        return held_by_the_format(self, perfetto(Story(*read(files))))

    def test_every_lawful_journal(self) -> None:
        for name, files in (runs() | examples()).items():
            with self.subTest(name):
                self.check(files)

    def test_the_philosophers(self) -> None:
        events = self.check(examples()["philosophers"])
        story = Story(*read(examples()["philosophers"]))
        takes = sum(record.word == "took" for _, record in story.records())
        self.assertEqual(sum(event["ph"] == "f" for event in events), takes)
        self.assertEqual({event["args"]["name"] for event in events if event["name"] == "thread_name"},
                         {"table", "eve", "dan", "cat", "bob", "ann", "kernel", "source 1", "source 2"} & {row.name for row in story.rows.rows})
        self.assertEqual(sum(event["ph"] == "X" for event in events), len(story.steps.steps) + len(story.steps.stimuli))

    def test_the_words_of_a_call(self) -> None:
        files = list(map(str, examples()["philosophers"]))
        with tempfile.TemporaryDirectory() as folder:
            path = Path(folder, "trace.json")
            self.assertEqual(main(["--perfetto", str(path), *files]), 0)
            self.assertEqual(path.read_text(), perfetto(Story(*read(examples()["philosophers"]))))
            with contextlib.redirect_stderr(io.StringIO()) as said:
                self.assertEqual(main(["--perfetto", *files]), 1)
                self.assertEqual(main(["--perfetto", f"{folder}/none/trace.json", *files]), 7)
                self.assertEqual(main(["--perfetto", str(path), files[0], files[1], f"{folder}/lost"]), 2)
            self.assertIn("none/trace.json can't be written: No such file", said.getvalue())
