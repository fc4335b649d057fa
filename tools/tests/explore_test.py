"""The search of every order: its numbers on the examples, and one small system for each rule."""

import contextlib
import io
import tempfile
import unittest
from pathlib import Path

from qptools.explore.command import main
from qptools.explore.machine import PORT, QK, Machine
from qptools.explore.search import Bounded, Explored, explore, journal_of
from qptools.program import TOP, call, is_built
from qpviewer.stimuli import read_stimuli
from qpviewer.system import read_system

EXAMPLES = TOP / "examples"
MOST = 10_000

HEAD = """qp = 1
pool = [{ size = 1, blocks = 2 }]
signal = [{ name = "GO", static = true }, { name = "X", static = true }, { name = "N", params = 1 }, { name = "M", params = 1 }]
"""


def searched(system: str, stimuli: str, kernel: str = PORT, in_phases: bool = False, most: int = MOST) -> Explored:
    read = read_system(system.encode())
    return explore(Machine(read, read_stimuli(stimuli.encode(), read), kernel, in_phases), most)


def example(system: str, stimuli: str, kernel: str) -> Explored:
    return searched((EXAMPLES / system).read_text(), (EXAMPLES / stimuli).read_text(), kernel)


def chart(name: str, rows: str, more: str = "", defer: int = 0) -> str:
    """A chart of one state, and its object; priorities are those of the objects' names."""
    return (f'[[chart]]\nname = "{name}"\ninit = "s"\n{more}\n[[chart.state]]\nname = "s"\nrow = [{rows}]\n'
            f'[[object]]\nname = "{name}"\nchart = "{name}"\npriority = {"abc".index(name) + 1}\nqueue = 1\ndefer = {defer}\n')


def row(on: str, *do: str) -> str:
    return f'{{ on = "{on}", do = [{", ".join(f"{chr(34)}{text}{chr(34)}" for text in do)}] }}'


def sources(*of: str) -> str:
    return "".join(f"source {number}\n" + "".join(f"{line}\n" for line in lines.split("; ")) for number, lines in enumerate(of, 1))


class Examples(unittest.TestCase):
    """The numbers of states and of ends; all ends by an assertion are one. bench/explore has those of all examples."""

    def test_numbers(self) -> None:
        for system, stimuli, kernel, states, ends in (
            ("inversion/inversion.toml", "inversion/stimuli.txt", PORT, 17, 2), ("inversion/inversion.toml", "inversion/stimuli.txt", QK, 19, 1),
            ("dry/dry.toml", "dry/stimuli.txt", PORT, 46, 2), ("dry/dry.toml", "dry/stimuli.txt", QK, 12, 1),
            ("pump/pump.toml", "pump/stimuli.txt", PORT, 50, 2), ("pump/pump.toml", "pump/stimuli.txt", QK, 85, 1),
        ):
            with self.subTest(system, kernel=kernel):
                found = example(system, stimuli, kernel)
                self.assertEqual((found.states, found.ends()), (states, ends))

    def test_no_run_shows_the_pump(self) -> None:
        """Under `port` the pump may run against the shut valve, by a path of twelve moves; under `qk` it can't."""
        for kernel, wrong in ((PORT, [12]), (QK, [])):
            found = example("pump/pump.toml", "pump/stimuli.txt", kernel)
            running = [place for outcome, place in found.outcomes.items() if outcome.states[0] == 2]
            self.assertEqual([len(found.path(place)) for place in running], wrong)

    def test_journal(self) -> None:
        """The path to the running pump is the journal that is kept beside the example."""
        folder = EXAMPLES / "pump"
        system = read_system((folder / "pump.toml").read_bytes())
        machine = Machine(system, read_stimuli((folder / "stimuli.txt").read_bytes(), system), PORT)
        found = explore(machine, MOST)
        journals = [journal_of(machine, found, place) for outcome, place in found.outcomes.items() if outcome.states[0] == 2]
        self.assertEqual(journals, [(folder / "wrong.txt").read_text()])

    def test_bound(self) -> None:
        with self.assertRaises(Bounded):
            searched((EXAMPLES / "pump" / "pump.toml").read_text(), (EXAMPLES / "pump" / "stimuli.txt").read_text(), most=49)


class Rules(unittest.TestCase):
    """What words do, and what lanes do alone."""

    def told(self, *words: str, **known: str) -> set[tuple[str, int, int]]:
        return {(told.word, told.lane, told.code) for told in searched(*words, **known).told}

    def test_refusals(self) -> None:
        """A full queue, a pool below its reserve, and a full list, each in its object's lane."""
        system = HEAD + chart("a", row("GO", "post b X margin 2")) + chart("b", row("GO", "post a N(1) reserve 2")) + chart("c", row("GO", "defer"))
        self.assertEqual(self.told(system, sources("post a GO")), {("full", 1, 0)})
        self.assertEqual(self.told(system, sources("post b GO")), {("short", 2, 0)})
        self.assertEqual(self.told(system, sources("post c GO")), {("nodefer", 3, 0)})
        self.assertEqual(self.told(system, sources("post c GO margin 2")), {("full", 4, 0)})

    def test_assertions(self) -> None:
        more = 'timer = [{ name = "T", signal = "X", rate = 0 }]'
        for rows, code in ((row("GO", "post a X", "post a X", "post a X"), 1), (row("GO", "post a N(1)", "post a N(1)", "post a N(1)"), 2),
                           (row("GO", "arm T(1, 0)", "arm T(1, 0)"), 3), (row("GO", "arm T(0, 0)"), 4), (row("GO", "lifo X", "lifo X", "lifo X"), 5)):
            with self.subTest(code):
                system = HEAD + chart("a", rows, more) + chart("b", row("N", "say p1"))
                self.assertEqual(self.told(system, sources("post a GO"), kernel=QK), {("assert", 0, code)})

    def test_start(self) -> None:
        """A start that asserts leaves no run that ends with 0."""
        system = HEAD + chart("a", "", 'init_do = ["post b X", "post b X", "post b X"]') + chart("b", row("X"))
        for kernel, lane in ((PORT, 1), (QK, 0)):
            found = searched(system, sources("post b GO margin 0"), kernel)
            self.assertEqual((found.assertions, len(found.outcomes)), ({(1, lane)}, 0))

    def test_last_reference(self) -> None:
        """A block that is forwarded, deferred and recalled comes back once, behind its last reference."""
        rows = row("N", "forward b", "defer", "recall") + "," + row("M", "flush")
        found = searched(HEAD + chart("a", f"{rows.replace('N', 'M', 1)}", defer=1) + chart("b", row("M", "say p1")), sources("post a M(1)"))
        self.assertEqual(len(found.outcomes), 0, "each recall brings the event back, for ever")
        system = HEAD + chart("a", row("N", "forward b", "defer", "flush"), defer=1) + chart("b", row("N", "say p1"))
        self.assertEqual({outcome.free for outcome in searched(system, sources("post a N(1)")).outcomes}, {(2,)})

    def test_publication(self) -> None:
        """Who has subscribed when the set is read gets the event; each may be given it between others' steps."""
        system = HEAD + chart("a", row("GO", "subscribe N") + "," + row("N", "n = n + p1"), "vars = { n = 0 }") + chart("b", row("GO", "publish N(3)"))
        found = searched(system, sources("post a GO", "post b GO"))
        self.assertEqual({(outcome.vars[0], outcome.free) for outcome in found.outcomes}, {((0,), (2,)), ((3,), (2,))})

    def test_settle(self) -> None:
        """It waits until all is quiet, and, in phases, until each other source stands at one or has no more."""
        system = HEAD + chart("a", row("GO", "n = 1") + "," + row("X", "n = n * 2"), "vars = { n = 0 }")
        ends = [{outcome.vars[0] for outcome in searched(system, sources("post a X; settle; post a GO", "settle; post a X"), in_phases=phases).outcomes}
                for phases in (False, True)]
        self.assertEqual(ends, [{(1,), (2,)}, {(1,), (2,)}])
        ends = [{outcome.vars[0] for outcome in searched(system, sources("settle; post a GO", "post a X"), in_phases=phases).outcomes}
                for phases in (False, True)]
        self.assertEqual(ends, [{(1,), (2,)}, {(1,)}])

    def test_ceiling(self) -> None:
        """Under `qk` a raised ceiling holds off what is not above it, and the row behind `locked` lets it in."""
        for rows, values in ((row("GO", "post b X", "post b X margin 1"), {(1,)}), (row("GO", "locked 2 [post b X; post b X margin 1]"), {(0,), (1,)})):
            found = searched(HEAD + chart("a", f"{rows[:-3]}, \"n = ok\"] }}", "vars = { n = 0 }") + chart("b", row("X", "say 1")), sources("post a GO"), QK)
            self.assertEqual({outcome.vars[0] for outcome in found.outcomes} <= values, True)


@unittest.skipUnless(is_built(), "the program isn't built")
class Judged(unittest.TestCase):
    """Journals of paths are lawful, also those that end where a lane has asserted and others are in the midst of something."""

    def test_journals(self) -> None:
        busy = (HEAD + chart("a", row("GO", "post b N(1)", "post b N(2)", "say 3"), 'init_do = ["subscribe N"]')
                + chart("b", row("N", "forward c margin 0", "defer", "publish M(p1) reserve 0", "recall"), defer=1) + chart("c", row("N", "post c N(p1) reserve 0")))
        for name, system, stimuli in (
            *((name, (EXAMPLES / f"{name}.toml").read_text(), (EXAMPLES / name).with_name("stimuli.txt").read_text())
              for name in ("dry/dry", "dry/saved", "inversion/inversion", "busy/system", "telemetry/system")),
            ("a crowd", busy, sources("post a GO; settle; tick 0", "post a GO margin 0; publish N(5) reserve 1")),
        ):
            with self.subTest(name), tempfile.TemporaryDirectory() as folder:
                files = [Path(folder, part) for part in ("system.toml", "stimuli.txt", "journal.txt")]
                files[0].write_text(system)
                files[1].write_text(stimuli)
                read = read_system(system.encode())
                machine = Machine(read, read_stimuli(stimuli.encode(), read), PORT)
                found = explore(machine, MOST)
                self.assertTrue(found.ended())
                for place in found.ended():
                    files[2].write_text(journal_of(machine, found, place))
                    judged = call(["check", *map(str, files)])
                    self.assertEqual((judged.output, judged.note), (b"lawful\n", ""))


if __name__ == "__main__":
    unittest.main()


@unittest.skipUnless(is_built(), "no program answers")
class Command(unittest.TestCase):
    """The words of `qp explore`, its lines and its status."""

    def told(self, *words: str) -> tuple[int, str, str]:
        out, notes = io.StringIO(), io.StringIO()
        with contextlib.redirect_stdout(out), contextlib.redirect_stderr(notes):
            status = main(list(words))
        return status, out.getvalue(), notes.getvalue()

    def test_all_of_them(self) -> None:
        pump = EXAMPLES / "pump"
        told = self.told("--until", "none", str(pump / "pump.toml"), str(pump / "stimuli.txt"))
        self.assertEqual(told, (0, "explored 50 states by 76 moves, all of them\nends: 2\n  end 0  pump still  valve shut  guard idle\n"
                                   "  end 0  pump running  valve shut  guard idle\n", ""))

    def test_an_end(self) -> None:
        pump = EXAMPLES / "pump"
        files = str(pump / "pump.toml"), str(pump / "stimuli.txt")
        self.assertEqual(self.told("--end", "2", *files), (0, (pump / "wrong.txt").read_text(), ""))
        self.assertEqual(self.told("--end", "3", *files), (10, "", "qp: no end 3\n"))

    def test_an_assertion(self) -> None:
        dry = EXAMPLES / "dry"
        status, out, note = self.told("--out", "journal", str(dry / "dry.toml"), str(dry / "stimuli.txt"))
        self.assertEqual((status, out.endswith("end 3\n"), note), (3, True, "qp: assertion 2 in lane 2\n"))

    def test_a_refusal(self) -> None:
        busy = EXAMPLES / "busy"
        for until, status, note in (("refusal", 9, "qp: met refusal\n"), ("assertion", 0, "")):
            self.assertEqual(self.told("--until", until, str(busy / "system.toml"), str(busy / "stimuli.txt"))[::2], (status, note))

    def test_too_many(self) -> None:
        pump = EXAMPLES / "pump"
        self.assertEqual(self.told("--most", "49", str(pump / "pump.toml"), str(pump / "stimuli.txt"))[::2], (10, "qp: more than 49 states\n"))

    def test_bad_words(self) -> None:
        for words in (("--kernel", "sim", "a", "b"), ("--most", "0", "a", "b"), ("--end", "0", "a", "b"), ("a",)):
            self.assertEqual(self.told(*words)[0], 1)
        self.assertEqual(self.told("none.toml", "none.txt")[0], 2)
