"""Outcomes of orders of stimuli, at once, settled and between, and of runs with threads: how they end, what is kept, and the status."""

import contextlib
import io
import re
import tempfile
import unittest
import unittest.mock
from pathlib import Path

from qptools.cases.case_file import ONE_THREAD, THREADED, read_cases
from qptools.cases.command import main
from qptools.cases.ends import Group, Orders, Outcome, happened, outcomes, stop_in_words, waiting_line
from qptools.cases.ends_text import ends_text, orders_text, runs_text
from qptools.cases.orders import SETTLE, WAIT, Between, between, count_of, lines_of, orders, places_between, settled, text_of
from qptools.cases.values import summary_of
from qptools.program import TOP, call, is_built
from qpviewer.journal import read_journal
from qpviewer.system import read_system

EXAMPLES = TOP / "examples"
JUDGED = TOP / "crates" / "qp_verdicts" / "data"
CLOCK = [str(EXAMPLES / "clock" / name) for name in ("clock.toml", "two.txt")]
SAVED = str(EXAMPLES / "dry" / "saved.toml")
#: A burst of events, and one that comes from somewhere else.
LATE = "source 1\npost reader BURST\nsource 2\npost writer COMMAND(3)\n"


def answer(*words: str) -> tuple[int, str, str]:
    told, noted = io.StringIO(), io.StringIO()
    with contextlib.redirect_stdout(told), contextlib.redirect_stderr(noted):
        status = main(list(words))
    return status, told.getvalue(), noted.getvalue()


class Plans(unittest.TestCase):
    """Orders, and how late their stimuli come."""

    def test_all_orders_each_once(self) -> None:
        for lengths in ([1], [2, 1], [2, 2], [3, 2, 1], [0, 2], [0], []):
            with self.subTest(lengths):
                found = list(orders(lengths))
                self.assertEqual(len(found), count_of(lengths))
                self.assertEqual(len(set(found)), len(found))
                for order in found:
                    self.assertEqual([order.count(source) for source in range(1, len(lengths) + 1)], lengths)
                changes = [sum(a != b for a, b in zip(order, order[1:])) for order in found]
                self.assertEqual(changes, sorted(changes))

    def test_lines(self) -> None:
        plan = (SETTLE, 1, WAIT, WAIT, 2, 1)
        lines = lines_of(plan, [["tick 0", "settle"], ["tick 1"]], "tick 3")
        self.assertEqual(lines, ["settle", "tick 0", "tick 3", "tick 3", "tick 1", "settle"])
        self.assertEqual(text_of(lines[:2]), "source 1\nsettle\ntick 0\n")
        self.assertEqual(settled((1, 2)), (SETTLE, 1, SETTLE, 2))

    def test_places(self) -> None:
        """Between a stimulus and the look in which all is quiet; a run that is stopped has none behind its end."""
        self.assertEqual(places_between((1, 2), [1, 2, 6, 7], 9), [Between((1, 2), 1, 3)])
        self.assertEqual(places_between((1, 2), [4, 5, 6, 7], 9), [Between((1, 2), 0, 3)])
        self.assertEqual(places_between((1, 2), [1, 2], 5), [Between((1, 2), 1, 3)])
        self.assertEqual(places_between((1, 2), [1], 1), [])

    def test_shortest_waits_first(self) -> None:
        found = list(between([Between((1, 2), 1, 2), Between((2, 1), 1, 1)]))
        self.assertEqual(found, [(SETTLE, 1, 2), (SETTLE, 2, 1), (SETTLE, 1, WAIT, 2)])

    def test_what_happens(self) -> None:
        self.assertEqual(happened((SETTLE, 1, WAIT, WAIT, 2), 4), (SETTLE, 1))
        self.assertEqual(happened((SETTLE, 1, WAIT, WAIT, 2), 5), (SETTLE, 1, WAIT, WAIT, 2))

    def test_a_rate_without_timers(self) -> None:
        system = read_system(Path(CLOCK[0]).read_bytes())
        self.assertEqual(waiting_line(system), "tick 3", "the clock's timers go by the rates 0 and 1")
        self.assertEqual(waiting_line(read_system(clock_of_all_rates().encode())), "")


def clock_of_all_rates() -> str:
    """The clock with two timers more, so that none of the four rates is free."""
    more = '\n  { name = "C", signal = "BUZZ_END", rate = 2 },\n  { name = "D", signal = "BUZZ_END", rate = 3 },\n]'
    text = Path(CLOCK[0]).read_text()
    return text.replace('rate = 1 },\n]', f'rate = 1 }},{more}')


class Texts(unittest.TestCase):
    """Outcomes in words. Each says how it ends and what stopped it, also where all end so."""

    stopped = Outcome(3, ("object a 1 -",), "assertion 1 in lane 0: a asserts: the queue of b is full")
    done = Outcome(0, ("object a 1 s", "object b 2 t"))

    def test_orders(self) -> None:
        groups = [Group(self.done, 4, (1, 2)), Group(Outcome(0, ("object a 1 s", "object b 3 t")), 2, (SETTLE, 2, WAIT, WAIT, 1))]
        self.assertEqual(orders_text(Orders(groups, 3, 2, 5, 1, "tick 3"), [["tick 0"], ["settle"]], []).splitlines(), [
            "2 of 3 orders were run, at once and settled, and 1 of 5 runs between, with 2 outcomes", "outcome 1, of 4 runs, ends with 0:",
            "  object b 2 t", "  by the order 1 2:", "    source 1: tick 0", "    source 2: settle",
            "outcome 2, of 2 runs, ends with 0:", "  object b 3 t", "  by the order 2 1:",
            "    settle", "    source 2: settle", "    tick 3, which moves no timer, 2 times", "    source 1: tick 0",
        ])
        text = orders_text(Orders([Group(self.stopped, 2, (1,))], 1, 1, 0, 0, ""), [["tick 0"]], ["kept/outcome-1.txt"])
        self.assertEqual(text.splitlines(), [
            "1 of 1 order was run, at once and settled, and no run between, since each rate has a timer, with 1 outcome",
            f"outcome 1, of 2 runs, ends with 3, {self.stopped.stop}:", "  object a 1 -", "  kept: kept/outcome-1.txt",
            "  by the order 1:", "    source 1: tick 0",
        ])

    def test_runs(self) -> None:
        self.assertEqual(runs_text([Group(self.stopped, 100)], "qk", []).splitlines(), [
            "100 runs under qk, with 1 outcome", f"outcome 1, of 100 runs, ends with 3, {self.stopped.stop}:", "  object a 1 -"])
        self.assertEqual(runs_text([Group(self.stopped, 2), Group(self.done, 1)], "port", ["k/1", "k/2"]).splitlines(), [
            "3 runs under port, with 2 outcomes", f"outcome 1, of 2 runs, ends with 3, {self.stopped.stop}:", "  object a 1 -", "  kept: k/1",
            "outcome 2, of 1 run, ends with 0:", "  object a 1 s", "  object b 2 t", "  kept: k/2"])

    def test_ends(self) -> None:
        both = [Group(self.stopped, 1), Group(self.done, 2)]
        self.assertEqual(ends_text(both, 0), (False, "FAIL  1 of 3 runs ends otherwise than with 0\n"))
        self.assertEqual(ends_text(both, 3), (False, "FAIL  2 of 3 runs end otherwise than with 3\n"))
        self.assertEqual(ends_text(both[1:], 0), (True, "pass  all 2 runs end with 0\n"))

    def test_who_stopped_a_run(self) -> None:
        """The judge's journals of runs that were stopped: by an object, the kernel, or a source, whose lanes stand behind those of objects."""
        table = (("crowded.toml", "crowded-out.txt", "lamp asserts: the queue of lamp is full"),)
        for system, journal, words in table:
            with self.subTest(journal):
                parts = read_system((JUDGED / "systems" / system).read_bytes())
                self.assertEqual(stop_in_words(parts, read_journal((JUDGED / "journals" / journal).read_bytes())), words)
        lamp = read_system((EXAMPLES / "lamp.toml").read_bytes())
        for kernel, lanes, lane in ((0, 2, 1), (2, 3, 2)):
            for words, told in (((), "source 1 asserts"), (("a stimulus",), "a stimulus asserts")):
                text = f"qp 1 {kernel} 1\n" + "".join(f"lane {number}\n" for number in range(lanes)) + "stim 0 1 1\nassert 0 1 1 1 0 0\nend 3\n"
                self.assertEqual(stop_in_words(lamp, read_journal(text.encode()), *words), f"{told}: the queue of lamp is full", (lane, kernel))
        spent = "qp 1 0 1\nlane 0\nspent 1\nlane 1\nend 4\n"
        self.assertIn("lamp ", stop_in_words(lamp, read_journal(spent.encode())))


@unittest.skipUnless(is_built(), "the program isn't built")
class RunOrders(unittest.TestCase):
    """Orders that are run, under the kernels of one thread."""

    def setUp(self) -> None:
        folder = tempfile.TemporaryDirectory()
        self.addCleanup(folder.cleanup)
        self.folder = Path(folder.name)
        self.late = self.folder / "late.txt"
        self.late.write_text(LATE)

    def test_outcomes(self) -> None:
        for words in ((), ("--kernel", "qv")):
            status, printed, _ = answer("orders", *words, *CLOCK)
            self.assertEqual(status, 0)
            self.assertTrue(printed.startswith("3 of 3 orders were run, at once and settled, and "), printed)
            self.assertEqual(re.findall("ends with ([0-9])", printed), ["0", "0"])
        self.assertTrue(answer("orders", *CLOCK, "--most=2")[1].startswith("2 of 3 orders were run"))

    def test_words(self) -> None:
        """Options stand before the files or behind them."""
        self.assertTrue(answer("orders", *CLOCK, "--most=2", "--kernel", "qv")[1].startswith("2 of 3 orders were run"))
        for words, told in ((("--much", "2"), "unrecognized arguments: --much 2"), (("--most",), "argument --most: expected one argument"),
                            (("--most", "few"), "argument --most: 'few' isn't a number, 1 or more"), (("third",), "unrecognized arguments: third"),
                            (("--kernel", "rtos"), "argument --kernel: invalid choice: 'rtos' (choose from 'sim', 'qv', 'qk', 'port', 'wait')"),
                            (("--ends", "1"), "argument --ends: invalid choice: 1 (choose from 0, 3, 4)")):
            status, _, noted = answer("orders", *CLOCK, *words)
            self.assertEqual(status, 2)
            self.assertIn(told, noted)

    def test_a_stimulus_between_steps(self) -> None:
        """The burst leaves one block free until its last event is made. A command that comes meanwhile takes it, and so ends the run; at
        once, or behind a settle, it finds a block."""
        system = read_system(Path(SAVED).read_bytes())
        stimuli = [["post reader BURST"], ["post writer COMMAND(3)"]]
        found = outcomes(SAVED, system, stimuli, "sim", 100)
        self.assertEqual(found.between, found.run_between)
        for group in found.groups:
            self.assertEqual(group.outcome.end == 3, WAIT in group.plan, group)
            self.assertEqual(bool(group.outcome.stop), group.outcome.end == 3)
        self.assertIn("reader asserts: pool 1 has no free block", found.groups[2].outcome.stop)
        with unittest.mock.patch("qptools.cases.ends.waiting_line", return_value=""):
            found = outcomes(SAVED, system, stimuli, "sim", 100)
        self.assertEqual(({group.outcome.end for group in found.groups}, found.between, sum(group.count for group in found.groups)), ({0}, 0, 4))

    def test_a_wait_is_a_look(self) -> None:
        """A stimulus behind so many waits happens so many looks later than at once."""
        for kernel in ONE_THREAD:
            for waits in range(4):
                with self.subTest(kernel, waits=waits):
                    stimuli = [["post reader BURST"], ["post writer COMMAND(3)"]]
                    self.late.write_text(text_of(lines_of((1, *(WAIT,) * waits, 2), stimuli, "tick 3")))
                    journal = call(["run", "--kernel", kernel, SAVED, str(self.late)]).output
                    looks = [int(look) for look in re.findall(rb"^stim 0 [0-9]+ ([0-9]+)$", journal, re.M)]
                    self.assertEqual(looks, list(range(1, waits + 3)))

    def test_a_status(self) -> None:
        self.assertEqual(answer("orders", "--ends", "0", *CLOCK)[::2], (0, ""))
        status, printed, _ = answer("orders", "--ends", "0", SAVED, str(self.late))
        self.assertEqual(status, 1)
        self.assertRegex(printed.splitlines()[-1], r"^FAIL  \d+ of \d+ runs end otherwise than with 0$")

    def test_what_is_kept(self) -> None:
        """A journal for each outcome, of the plan that is shown, with its stimuli; none is written over."""
        folder = self.folder / "new" / "kept"
        printed = answer("orders", "--keep", str(folder), SAVED, str(self.late))[1]
        kept = re.findall("^  kept: (.*)$", printed, re.M)
        self.assertEqual(kept, [f"{folder}/outcome-{number}.txt" for number in range(1, len(kept) + 1)])
        self.assertEqual(re.findall("ends with ([0-9])", printed), [Path(name).read_text().rstrip()[-1] for name in kept])
        for name in kept:
            stimuli = name.replace(".txt", "-stimuli.txt")
            self.assertEqual(call(["check", SAVED, stimuli, name]).output, b"lawful\n")
        status, _, noted = answer("orders", "--keep", str(folder), *CLOCK)
        self.assertEqual((status, noted), (2, f"qptest: {folder} has outcomes already, as outcome-1-stimuli.txt: remove them, or name another folder\n"))
        status, _, noted = answer("orders", "--keep", f"{self.late}/kept", *CLOCK)
        self.assertEqual((status, noted), (2, f"qptest: {self.late}/kept: can't be made: Not a directory\n"))

    def test_what_is_refused(self) -> None:
        """A system or stimuli that the program refuses are told once, and no order is run."""
        self.late.write_text("source 1\npost lamp GO(1)\n")
        status, printed, noted = answer("orders", str(EXAMPLES / "lamp.toml"), str(self.late))
        self.assertEqual((status, printed), (2, ""))
        self.assertTrue(noted.startswith(f"qptest: qp: {self.late}: 5 2\n"), noted)
        self.assertIn("GO", noted)

    def test_an_order_ends_where_its_run_does(self) -> None:
        """A run that is stopped is told with the stimuli that happened alone."""
        lamp = (EXAMPLES / "lamp.toml").read_text().replace('to = "on"', 'do = ["post me GO", "post me GO", "post me GO"]')
        (self.folder / "lamp.toml").write_text(lamp)
        self.late.write_text("source 1\npost lamp GO\nsettle\nsource 2\ntick 0\n")
        printed = answer("orders", f"{self.folder}/lamp.toml", str(self.late))[1]
        self.assertRegex(printed, r"^3 of 3 orders were run, .*, with 1 outcome\n")
        self.assertIn("ends with 3, assertion 1 in lane 0: lamp asserts: the queue of lamp is full:\n", printed)
        self.assertTrue(printed.endswith("  by the order 1:\n    source 1: post lamp GO\n"), printed)


@unittest.skipUnless(is_built(), "the program isn't built")
class Threads(unittest.TestCase):
    """Runs with threads, of which two may differ."""

    def test_outcomes(self) -> None:
        """Two sources that don't wait for each other may come to either end; one source and one object come to one."""
        for kernel in THREADED:
            with self.subTest(kernel), tempfile.TemporaryDirectory() as folder:
                status, printed, _ = answer("orders", "--kernel", kernel, "--most", "8", "--keep", folder, "--ends", "0", *CLOCK)
                self.assertEqual(status, 0)
                self.assertRegex(printed, rf"^8 runs under {kernel}, with [12] outcomes?\n")
                for journal in Path(folder).iterdir():
                    self.assertEqual(call(["check", *CLOCK, str(journal)]).output, b"lawful\n")
        lamp = [str(EXAMPLES / name) for name in ("lamp.toml", "go.txt")]
        self.assertEqual(answer("orders", "--kernel", "port", "--most", "3", *lamp)[1].splitlines(), [
            "3 runs under port, with 1 outcome", "outcome 1, of 3 runs, ends with 0:", "  object lamp 1 on",
        ])

    def test_all_runs_assert(self) -> None:
        """Which is said, though the outcomes don't differ in it."""
        dry = [str(EXAMPLES / "dry" / name) for name in ("dry.toml", "stimuli.txt")]
        status, printed, _ = answer("orders", "--kernel", "qk", "--most", "4", "--ends", "0", *dry)
        stop = "assertion 2 in lane 0: reader asserts: pool 1 has no free block"
        self.assertEqual((status, printed.splitlines()[1]), (1, f"outcome 1, of 4 runs, ends with 3, {stop}:"))
        self.assertEqual(printed.splitlines()[-1], "FAIL  4 of 4 runs end otherwise than with 0")


@unittest.skipUnless(is_built(), "the program isn't built")
class Values(unittest.TestCase):
    """A summary that is read off a journal is what the program prints of the run."""

    def assert_summary(self, system: Path, stimuli: Path, words: list[str], journal: bytes) -> None:
        printed = call(["run", "--out", "summary", *words, "--", str(system), str(stimuli)]).output.decode()
        self.assertEqual(summary_of(read_system(system.read_bytes()), read_journal(journal)), printed)

    def test_journals_of_one_thread(self) -> None:
        """The judge's, each of which is the only one of its run."""
        tried = 0
        for line in (JUDGED / "lawful.txt").read_text().splitlines()[1:]:
            name, *files = line.split("\t")
            system, stimuli, path = (JUDGED / folder / file for folder, file in zip(("systems", "stimuli", "journals"), files))
            kernel, budget = path.read_text().split("\n")[0].split(" ")[2:]
            if kernel in ("0", "3"):
                with self.subTest(name):
                    self.assert_summary(system, stimuli, ["--kernel", "sim" if kernel == "0" else "qv", "--budget", budget], path.read_bytes())
                    tried += 1
        self.assertGreater(tried, 25)

    def test_examples(self) -> None:
        for path in sorted(EXAMPLES.rglob("cases.toml")):
            for case in read_cases(path):
                if isinstance(case.stimuli, Path):
                    with self.subTest(case.name):
                        words = ["--kernel", "qv"]
                        journal = call(["run", *words, "--", str(case.system), str(case.stimuli)]).output
                        self.assert_summary(case.system, case.stimuli, words, journal)
