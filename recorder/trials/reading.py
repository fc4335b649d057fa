"""Traces by hand: what is read, what is told, what is refused. No compiler is needed."""

import contextlib
import io
import tempfile
import unittest
from pathlib import Path

from qpjournal.command import BAD_FILE, DONE, judgeable, main
from qpjournal.making import make
from qpjournal.pieces import LANES, ONE, Pieces
from qpjournal.records import Raw
from qpjournal.trace import Trace, read_trace
from qpjournal.window import window
from qpviewer.faults import Fault
from qpviewer.system import read_system

from .places import RUNS
from .wire import piece

#: The lamp's run as its lines in docs/FORMATS.md tell it, by hand: object 1 starts, source 1 posts GO, the object takes it.
LAMP_LANE = bytes([0, 4, 1, 11, 1, 2, 12, 1, 3, 47, 4, 14, 5, 5, 0, 4, 1, 6, 49, 1, 7, 10, 1, 8, 11, 2, 9, 12, 2, 10, 47, 11, 14])
LAMP_SOURCE = bytes([0, 40, 1, 1, 4, 0, 0, 1, 20, 1, 0, 4, 0])
#: The same in one buffer, where each record says who, and no operation has a number.
LAMP_RECORDS = [
    [4, 1], [11, 1, 1], [12, 1, 1], [47, 1], [14, 1], [40, 33, 1, 1, 4, 0, 0], [20, 33, 1, 0, 4],
    [5, 1, 0, 4], [49, 1, 1], [10, 1, 1], [11, 1, 2], [12, 1, 2], [47, 1], [14, 1],
]
LAMP_JOURNAL = """qp 2 2 1000000
lane 0
lane 1
begin 1
enter 1 1
done 1
took 1 1 0 1 0 4 0
run 1 1 1
exit 1 1
enter 1 2
done 1
lane 2
stim 0 1 0
post 0 1 1 0 0 0 4 0
end 0
"""
#: Two objects: `low` is stopped by what a source posts to `high`, whose queue has one place.
PAIR = """qp = 1

[[pool]]
size = 1
blocks = 2

[[signal]]
name = "GO"
static = true

[[signal]]
name = "SET"
params = 1

[[chart]]
name = "plain"
init = "on"

[[chart.state]]
name = "on"
row = [{ on = "GO", do = ["say 0 - 3", "post me SET(7) margin 1 reserve 0"] }]

[[object]]
name = "low"
chart = "plain"
priority = 1
queue = 3

[[object]]
name = "high"
chart = "plain"
priority = 2
queue = 0
"""
STARTS = [[4, 1], [11, 1, 1], [12, 1, 1], [47, 1], [14, 1], [4, 2], [11, 2, 1], [12, 2, 1], [47, 2], [14, 2]]
#: Source 1 posts GO to an object, and the post; to `high` where it is full, and the assertion.
TO_LOW, TO_HIGH, ASSERTED = ([40, 33, 1, 1, 4, 0, 0], [20, 33, 1, 0, 4]), ([40, 33, 1, 2, 4, 0, 0], [20, 33, 2, 0, 4]), (
    [40, 33, 1, 2, 4, 0, 0], [42, 33, 1, 2])


def numbered(records: list[list[int]]) -> bytes:
    """Records with their numbers."""
    return b"".join(bytes([number % 256, *record]) for number, record in enumerate(records))


LAMP_ONE = numbered(LAMP_RECORDS)


def in_pieces(content: bytes, size: int) -> list[bytes]:
    """One buffer's bytes as pieces of so many."""
    parts = [content[at:at + size] for at in range(0, len(content), size)]
    return [piece(ONE, 0, part, number, is_last=number == len(parts) - 1) for number, part in enumerate(parts)]


class Pieced(unittest.TestCase):
    """Pieces out of bytes, of which some are hurt or missing."""

    def told_of(self, trace: bytes) -> tuple[int, list[str]]:
        """How many records are read, and what is told; the trace isn't whole."""
        read = read_trace(trace)
        self.assertFalse(read.is_whole)
        return len(read.order), read.told

    def test_pieces_of_a_buffer_are_joined(self) -> None:
        for size in range(1, len(LAMP_ONE) + 1):
            self.assertEqual(read_trace(b"".join(in_pieces(LAMP_ONE, size))).order, read_trace(piece(ONE, 0, LAMP_ONE)).order)

    def test_bytes_that_come_one_by_one(self) -> None:
        data = b"".join(in_pieces(LAMP_ONE, 9))
        pieces = Pieces()
        for at in range(len(data)):
            pieces.feed(data[at:at + 1])
        self.assertEqual(b"".join(one.content for one in pieces.whole), LAMP_ONE)
        self.assertEqual(pieces.hurt, [])

    def test_each_flipped_bit_of_a_piece_is_found(self) -> None:
        first, second, third = in_pieces(LAMP_ONE, 24)
        for bit in range(8 * len(second)):
            hurt = bytearray(second)
            hurt[bit // 8] ^= 1 << bit % 8
            self.assertEqual(self.told_of(first + hurt + third), (5, [
                "bytes 48 to 95 are no whole piece",
                "the buffer: piece 1 is missing; what follows is left out",
                "the buffer: left out: 1 whole piece behind its gap",
                "the buffer: the bytes end within record 6",
            ]))

    def test_lost_bytes_and_pieces_are_told(self) -> None:
        pieces = in_pieces(LAMP_ONE, 10)
        self.assertEqual(self.told_of(b"".join([*pieces[:2], *pieces[4:]])), (5, [
            "the buffer: pieces 2 to 3 are missing; what follows is left out",
            "the buffer: left out: 2 whole pieces behind its gap",
            "the buffer: the bytes end within record 6",
        ]))
        trace = b"".join(pieces)
        for at in range(34, 68): # of piece 1, which isn't whole then
            records, told = self.told_of(trace[:at] + trace[at + 1:])
            self.assertEqual((records, told[0]), (2, "bytes 34 to 66 are no whole piece"))

    def test_a_missing_end_is_told(self) -> None:
        pieces = in_pieces(LAMP_ONE, 10)
        said = "the buffer: its end is missing: the run just stops, or its last pieces are lost"
        self.assertIn(said, self.told_of(b"".join(pieces[:-1]))[1])
        self.assertEqual(self.told_of(piece(ONE, 0, LAMP_ONE, is_last=False)), (14, [said]))

    def test_what_stands_between_pieces_is_told(self) -> None:
        noise = b"boot: 32 KB\r\nQPR"
        trace = read_trace(noise + noise.join(in_pieces(LAMP_ONE, 50)) + noise)
        self.assertTrue(trace.is_whole)
        self.assertEqual(trace.told, [f"bytes {start} to {start + 15} are no whole piece" for start in (0, 90, 138)])
        self.assertEqual(len(trace.order), 14)

    def test_a_restart_is_told(self) -> None:
        first, second = in_pieces(LAMP_ONE, 30)
        twice = read_trace(first + first + second)
        self.assertEqual((twice.is_whole, len(twice.order), twice.told), (True, 14, []))
        again = piece(ONE, 0, LAMP_ONE[:20], is_last=False)
        self.assertEqual(self.told_of(first + again + second)[1][0],
                         "the buffer: piece 0 comes once more, as behind a restart; what follows is left out")

    def test_what_follows_the_end_is_left_out(self) -> None:
        trace = read_trace(piece(ONE, 0, LAMP_ONE) + piece(ONE, 0, LAMP_ONE, 1))
        self.assertTrue(trace.is_whole)
        self.assertEqual((len(trace.order), trace.told), (14, ["the buffer: left out: 1 whole piece behind its end"]))

    def test_a_buffer_that_is_missing_is_told(self) -> None:
        trace = read_trace(piece(LANES, 1, LAMP_LANE, buffers=2))
        self.assertFalse(trace.is_whole)
        self.assertEqual(trace.told, ["1 of 2 buffers have no whole piece"])

    def test_lost_records_are_told_and_what_follows_left_out(self) -> None:
        self.assertEqual(self.told_of(piece(ONE, 0, LAMP_ONE, lost=256, before_lost=25)), (
            6, ["the buffer: records found no room and are lost; what follows is left out", "the buffer: 256 records are lost"]))


class Traces(unittest.TestCase):
    """The lamp's trace, in both forms, and what is wrong with others."""

    def setUp(self) -> None:
        self.text = RUNS["lamp"].system.read_text()
        self.system = read_system(self.text.encode())

    def test_both_forms_make_the_same_journal(self) -> None:
        lanes = piece(LANES, 1, LAMP_LANE, buffers=2) + piece(LANES, 33, LAMP_SOURCE, buffers=2)
        for trace in (lanes, piece(ONE, 0, LAMP_ONE)):
            made = make(self.system, read_trace(trace))
            self.assertEqual(made.journal_text(), LAMP_JOURNAL)
            self.assertEqual(made.stimuli_text(), "source 1\npost lamp GO\n")
            self.assertEqual(made.notes, [])

    def test_numbers_of_several_bytes_and_signed_values(self) -> None:
        trace = read_trace(piece(LANES, 1, bytes([0, 13, 5, 1, 13, 4, 2, 17, 1, 2, 0x80, 0x02, 3, 48, 1, 2, 2, 0xFF, 0x01, 7])))
        self.assertEqual(trace.lanes[1], [
            Raw(1, "say", (-3,)), Raw(1, "say", (2,)), Raw(1, "inc", (1, 2), 256), Raw(1, "event", (1, 2, 255, 7)),
        ])

    def test_a_gap_is_told_and_ends_the_records(self) -> None:
        trace = read_trace(piece(LANES, 1, LAMP_LANE[:8] + LAMP_LANE[10:]))
        self.assertFalse(trace.is_whole)
        self.assertEqual(trace.told, ["object 1: behind record 3 at least 1 are missing; what follows is left out"])
        self.assertEqual(len(trace.lanes[1]), 3)

    def test_a_cut_record_is_told(self) -> None:
        trace = read_trace(piece(ONE, 0, LAMP_ONE[:-1]))
        self.assertFalse(trace.is_whole)
        self.assertEqual(trace.told, ["the buffer: the bytes end within record 14"])

    def test_what_is_refused(self) -> None:
        former = b"QPR" + bytes([ONE, 0, 0, 0, 0]) + len(LAMP_ONE).to_bytes(4, "little") + bytes(4) + LAMP_ONE
        for data, words in (
            (b"", "has no whole piece"), (b"QPX", "has no whole piece"), (piece(ONE, 0, LAMP_ONE)[:-1], "has no whole piece"),
            (former, "byte 0: a piece without a number and a check, of a former qp_record.h"),
            (piece(ONE, 0, b"") + piece(LANES, 1, b""), "both forms"),
            (piece(LANES, 1, bytes([0, 3])), "begins none"), (piece(ONE, 0, bytes([0, 4, 49])), "begins none"),
            (piece(LANES, 1, bytes([0, 42, 6])), "unknown kind 6"),
        ):
            with self.subTest(data), self.assertRaisesRegex(Fault, words):
                read_trace(data)

    def test_an_object_that_the_system_lacks(self) -> None:
        with self.assertRaisesRegex(Fault, "object 2, which the system doesn't have"):
            make(self.system, read_trace(piece(LANES, 2, bytes([0, 4]))))

    def test_a_record_of_another_sort_of_lane(self) -> None:
        for record, words in (([40, 1, 3, 0], "object 1: record 1 is `stim`"), ([14, 33], "source 1: record 1 is `done`")):
            with self.assertRaisesRegex(Fault, words):
                make(self.system, read_trace(piece(ONE, 0, numbered([record]))))

    def test_a_window_says_what_it_drops_and_adds(self) -> None:
        trace = read_trace(piece(LANES, 1, LAMP_LANE[:20]) + piece(LANES, 33, LAMP_SOURCE))
        text, made = window(self.text, self.system, make(self.system, trace))
        self.assertIn('name = "window_ends"', text)
        self.assertEqual(made.notes, [
            "lane 1, lamp: 2 of 5 records are left out",
            "added: object window_ends of priority 32, and source 2, whose second post to it is the assertion at which the "
            "journal ends",
        ])
        self.assertEqual(made.journal_text().splitlines()[-5:], [
            "stim 0 1 0", "post 0 32 1 0 0 0 5 0", "stim 0 2 0", "assert 0 1 32 1 0 0", "end 3",
        ])

    def test_a_window_needs_tables_of_their_own(self) -> None:
        text = self.text.replace('[[object]]\nname = "lamp"\nchart = "lamp"\npriority = 1\nqueue = 1\n', "")
        text = text.replace("qp = 1\n", 'qp = 1\nobject = [{ name = "lamp", chart = "lamp", priority = 1, queue = 1 }]\n')
        made = make(self.system, read_trace(piece(ONE, 0, LAMP_ONE)))
        with self.assertRaisesRegex(Fault, "tables of their own"):
            window(text, read_system(text.encode()), made)


class Stimuli(unittest.TestCase):
    """Stimuli that no line can say are refused."""

    def test_each(self) -> None:
        system = read_system(PAIR.encode())
        post, publish, tick = [40, 33, 1], [40, 33, 2], [40, 33, 3]
        for records, words in (
            ([[*post, 3, 4, 0, 0]], "stimulus 1: a post to object 3, which the system doesn't have"),
            ([[*tick, 0], [*post, 1, 9, 0, 0]], "stimulus 2: signal 9, which the system doesn't have"),
            ([[*post, 1, 4, 0, 1]], "stimulus 1: GO is static, so QPR_NONE_ASKED has to stand for its reserve"),
            ([[*publish, 4, 1]], "GO is static"), ([[*post, 1, 4, 0x81, 2, 0]], "a margin of 256; the most is 255"),
            ([[*post, 1, 5, 0, 0x81, 2]], "a reserve of 256"), ([[*tick, 4]], "a tick of rate 4; rates are 0 to 3"),
            ([[*post, 1, 5, 0, 0], [15, 33, 1, 0, 5], [48, 33, 1, 0, 2, 7, 7], [17, 33, 1, 0]], "SET with 2 parameters; the system gives it 1"),
        ):
            with self.subTest(words), self.assertRaisesRegex(Fault, f"source 1, .*{words}"):
                make(system, read_trace(piece(ONE, 0, numbered(records))))


class Asserted(unittest.TestCase):
    """A run that ends at an assertion, in the middle of another's step."""

    def setUp(self) -> None:
        self.system = read_system(PAIR.encode())

    def trace(self, *records: list[int]) -> Trace:
        return read_trace(piece(ONE, 0, numbered([*STARTS, *records])))

    def test_a_step_behind_its_take_alone_is_left_out(self) -> None:
        found = judgeable(PAIR, self.system, self.trace(*TO_LOW, [5, 1, 0, 4], *TO_LOW, *TO_HIGH, *ASSERTED))
        self.assertIsNone(found.system)
        self.assertEqual(found.made.notes, [
            "object 1: the last 1 of 6 records are left out: source 1 asserted, and a lane stops before a step or a stimulus, or behind a "
            "whole action",
        ])
        self.assertEqual(found.made.journal_text(), """qp 2 2 1000000
lane 0
lane 1
begin 1
enter 1 1
done 1
lane 2
begin 2
enter 2 1
done 2
lane 3
stim 0 1 0
post 0 1 1 0 0 0 4 0
stim 0 2 0
post 0 1 2 0 0 0 4 0
stim 0 3 0
post 0 2 1 0 0 0 4 0
stim 0 4 0
assert 0 1 2 1 0 0
end 3
""")

    def test_a_step_ends_behind_a_whole_action(self) -> None:
        """It says -3, and its post had its block alone."""
        found = judgeable(PAIR, self.system, self.trace(*TO_LOW, [5, 1, 0, 4], [13, 1, 5], [15, 1, 1, 1, 5], *TO_HIGH, *ASSERTED))
        self.assertEqual(found.made.lanes[1][3:], ["took 1 1 0 1 0 4 0", "run 1 1 1", "say 1 -3"])
        self.assertEqual(found.made.lanes[3][-1], "assert 0 1 2 1 0 0")

    def test_a_stimulus_that_is_not_whole_is_left_out(self) -> None:
        posts = [[40, 34, 1, 2, 4, 0, 0], [20, 34, 2, 0, 4], [40, 34, 1, 2, 4, 0, 0], [42, 34, 1, 2]]
        found = judgeable(PAIR, self.system, self.trace([40, 33, 1, 1, 5, 0, 0], [15, 33, 1, 1, 5], *posts))
        self.assertEqual(found.made.lanes[3], [])
        self.assertEqual(found.made.sources, [[], ["post high GO"] * 2])

    def test_what_others_went_on_from_makes_a_window(self) -> None:
        """`high` took its entry, and only so there was room for the next one."""
        found = judgeable(PAIR, self.system, self.trace(*TO_HIGH, [5, 2, 0, 4], *TO_HIGH, *ASSERTED))
        self.assertIn("window_ends", found.system or "")
        self.assertEqual(found.made.notes[0], (
            "the run ended at assertion 1 of source 1 (`assert 1 2`) while object 2 was in the middle of an action that others had gone on "
            "from (`took`), so no lawful journal has both; what stands before them is kept"
        ))
        self.assertEqual(found.made.lanes[4], ["stim 0 1 0", "post 0 2 1 0 0 0 4 0"])


class Calls(unittest.TestCase):
    """Calls of the command, with their statuses and lines."""

    def call(self, trace: bytes, *options: str) -> tuple[int, list[str], list[str]]:
        """The status, the lines, and the files that were written."""
        with tempfile.TemporaryDirectory() as folder:
            file, out = Path(folder, "trace"), Path(folder, "out")
            file.write_bytes(trace)
            with contextlib.redirect_stderr(io.StringIO()) as said:
                status = main([*options, str(RUNS["lamp"].system), str(file), str(out)])
            written = sorted(one.name for one in out.iterdir()) if out.exists() else []
            return status, said.getvalue().replace(folder, "").splitlines(), written

    def test_a_whole_trace(self) -> None:
        self.assertEqual(self.call(piece(ONE, 0, LAMP_ONE)), (DONE, [], ["journal.txt", "stimuli.txt"]))

    def test_what_is_not_whole_is_refused(self) -> None:
        hurt = piece(ONE, 0, LAMP_ONE[:17], is_last=False) + b"QPR!" + piece(ONE, 0, LAMP_ONE[30:], 2)
        missing = [
            "qp_journal: bytes 41 to 44 are no whole piece",
            "qp_journal: the buffer: piece 1 is missing; what follows is left out",
            "qp_journal: the buffer: left out: 1 whole piece behind its gap",
        ]
        self.assertEqual(self.call(hurt), (BAD_FILE, [
            *missing, "qp_journal: /trace: the trace isn't whole, so no journal is made of it; --window makes one of what stands before",
        ], []))
        status, lines, written = self.call(hurt, "--window")
        self.assertEqual((status, lines[:3], written), (DONE, missing, ["journal.txt", "stimuli.txt", "system.toml"]))
        self.assertEqual(lines[-1], "qp_journal: judge it by /out/system.toml")

    def test_a_window_of_a_whole_trace(self) -> None:
        self.assertEqual(self.call(piece(ONE, 0, LAMP_ONE), "--window"), (DONE, [
            "qp_journal: nothing is missing of the trace, so its journal is that of the whole run",
            "qp_journal: judge it by /out/system.toml",
        ], ["journal.txt", "stimuli.txt", "system.toml"]))


def try_reading() -> bool:
    """Whether all of this holds."""
    suite = unittest.TestSuite(map(unittest.defaultTestLoader.loadTestsFromTestCase, (Pieced, Traces, Stimuli, Asserted, Calls)))
    return unittest.TextTestRunner(verbosity=1).run(suite).wasSuccessful()
