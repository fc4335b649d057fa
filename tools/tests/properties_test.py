"""Tests of states in cases files: how they are read, what they ask, and cases of which every order is gone through."""

import tempfile
import unittest
from pathlib import Path

from qptools.cases.case_file import CaseFault, read_cases
from qptools.cases.every_order import try_orders
from qptools.cases.properties import BadProperty, Seen, read_property
from qptools.explore.calls import Told
from qptools.explore.machine import PORT, Machine
from qptools.explore.search import explore
from qptools.program import TOP, is_built
from qpviewer.stimuli import read_stimuli
from qpviewer.system import read_system

from explore_test import HEAD, chart, row, sources

PUMP = TOP / "examples" / "pump"
HEAD_OF_CASE = f'[[case]]\nname = "one"\nsystem = "{PUMP / "pump.toml"}"\nstimuli = "{PUMP / "stimuli.txt"}"\n'


class Texts(unittest.TestCase):
    SYSTEM = read_system((HEAD + chart("a", row("GO", "n = 1"), "vars = { n = 0 }") + chart("b", row("GO"))).encode())

    def test_faults(self) -> None:
        for text, words in (
            ("", "it is empty"), ("a.s &&", "a name is missing"), ("c.s", "there is no object c"), ("a.t", "a has no state t"),
            ("a.n", "a has no state n, and its variable has to be compared"), ("a.s == 1", "a has no variable s"), ("a.n == x", "a number is missing"),
            ("(a.s", "')' is missing"), ("a.s a.s", "'a' is left over"), ("free pool 2 < 1", "there is no pool 2"), ("free a", "a comparison is missing"),
            ("a s", "'.' is missing"), ("a.s && ?", "'?' is no part of a test"),
        ):
            with self.subTest(text), self.assertRaises(BadProperty) as raised:
                read_property(text, self.SYSTEM)
            self.assertEqual(str(raised.exception), words)

    def held(self, text: str, system: str, stimuli: str) -> set[bool]:
        """Which answers a test has over all orders, where it is asked."""
        read = read_system(system.encode())
        machine, prop, answers = Machine(read, read_stimuli(stimuli.encode(), read), PORT), read_property(text, read), set[bool]()

        def look(place: int, told: tuple[Told, ...], spot: object) -> None:
            seen = Seen(machine, spot, told)  # type: ignore[arg-type]
            if prop.is_asked(seen):
                answers.add(prop.holds(seen))

        explore(machine, 1000, look)
        return answers

    def test_each_word(self) -> None:
        system = HEAD + chart("a", row("GO", "n = 1", "post b N(1) margin 1") + "," + row("X", "defer", "n = 2"), "vars = { n = 0 }", defer=1) + chart("b", "")
        stimuli = sources("post a GO margin 0; post a X margin 0; post a X margin 0")
        for text, answers in (
            ("a.s", {True}), ("a.n == 1", {True, False}), ("a.n >= 0", {True}), ("a.n < 0", {False}), ("a.n == 0 || a.n > 0", {True}),
            ("a.n == 0 && a.n > 0", {False}), ("!(a.n < 0)", {True}), ("deferred a == 1", {True, False}), ("deferred a > 1", {False}),
            ("free b < 1", {False}), ("free b < 2", {True, False}), ("free pool 1 < 2", {True, False}), ("assertion", {False}), ("refused", {True, False}),
        ):
            with self.subTest(text):
                self.assertEqual(self.held(text, system, stimuli), answers)

    def test_a_state_within_another(self) -> None:
        inner = '[[chart.state]]\nname = "t"\nparent = "s"\nrow = []\n'
        system = HEAD + chart("a", row("GO")).replace('init = "s"\n', 'init = "t"\n').replace("[[object]]", inner + "[[object]]")
        self.assertEqual(self.held("a.s && a.t", system, sources("post a GO")), {True})


class Cases(unittest.TestCase):
    def read(self, text: str) -> list[str]:
        """What fails by every order under `port`, in words."""
        with tempfile.TemporaryDirectory() as folder:
            path = Path(folder, "cases.toml")
            path.write_text(HEAD_OF_CASE + text)
            return [failure.words for failure in try_orders(read_cases(path)[0], PORT).failures]

    def test_keys(self) -> None:
        for text in ('explore = "wait"', 'explore = []', 'never = ["assertion"]', 'explore = "port"\nnever = "assertion"', 'explore = "port"\nmost = 0'):
            with self.subTest(text), self.assertRaises(CaseFault):
                self.read(text)

    def test_properties(self) -> None:
        for text, words in (
            ('explore = "port"', []),
            ('explore = "port"\nreaches = ["pump.running"]\nnever = ["refused"]\nends = ["deferred pump == 0"]', []),
            ('explore = "port"\nreaches = ["pump.running && guard.idle && free guard < 1"]',
             ["'pump.running && guard.idle && free guard < 1' holds at no place of any order"]),
            ('explore = "port"\nmost = 49', ["there are more than 49 states"]),
            ('explore = "port"\nends = ["pumps.still"]', ["'pumps.still': there is no object pumps"]),
        ):
            with self.subTest(text):
                self.assertEqual(self.read(text), words)

    @unittest.skipUnless(is_built(), "no program answers")
    def test_journals(self) -> None:
        """What fails is shown by a journal, which the judge calls lawful."""
        self.assertEqual(self.read('explore = "port"\nnever = ["pump.running && valve.shut"]\nends = ["pump.still || valve.open"]'),
                         ["'pump.running && valve.shut' holds, behind 11 moves", "'pump.still || valve.open' doesn't hold at an end, behind 12 moves"])
