"""What `./qp lint` finds, and where it says that it stands."""

import contextlib
import io
import tempfile
import unittest
from pathlib import Path

from qptools.lint.command import main
from qptools.program import TOP
from qpviewer.positions import read_lines

#: Two objects; each test changes one thing of it. Lines are counted from 1.
SYSTEM = """\
qp = 1

[[pool]]
size = 1
blocks = 4

[[signal]]
name = "GO"
static = true
[[signal]]
name = "DATA"
params = 1

[[chart]]
name = "Pump"
init = "idle"
init_do = ["subscribe GO"]

[[chart.state]]
name = "idle"
row = [
  { on = "GO", when = "ok == 1", do = ["post tank DATA(1) margin 1"], to = "busy" },
  { on = "GO", to = "busy" },
]

[[chart.state]]
name = "busy"

[[chart.state]]
name = "inner"
parent = "busy"
row = [{ on = "GO", to = "idle" }]

[[chart]]
name = "Tank"
init = "only"

[[chart.state]]
name = "only"

[[chart.state.row]]
on = "DATA"
do = ["locked 2 [say p1; publish GO]"]

[[object]]
name = "pump"
chart = "Pump"
priority = 1
queue = 2

[[object]]
name = "tank"
chart = "Tank"
priority = 2
queue = 2
"""
CLEAN = ("name = \"busy\"", "name = \"busy\"\ninit = \"inner\"")


def linted(*changes: tuple[str, str], stimuli: str | None = None) -> tuple[list[str], int]:
    """The lines of a changed system, without the file's name, and the status."""
    text = SYSTEM
    for old, new in changes:
        assert text.count(old) == 1, old
        text = text.replace(old, new)
    with tempfile.TemporaryDirectory() as folder:
        path, other = Path(folder, "s.toml"), Path(folder, "s.txt")
        path.write_text(text)
        other.write_text(stimuli or "")
        said = io.StringIO()
        with contextlib.redirect_stdout(said):
            status = main([str(path), *([str(other)] if stimuli is not None else [])])
        return [line.removeprefix(f"{path}:") for line in said.getvalue().splitlines()], status


class Rules(unittest.TestCase):
    """Each rule, with the line of its place."""

    def found(self, lines: list[str], *changes: tuple[str, str], stimuli: str | None = None) -> None:
        self.assertEqual(linted(CLEAN, *changes, stimuli=stimuli), (lines, 1 if lines else 0))

    def test_nothing(self) -> None:
        self.found([])

    def test_a_state_that_nothing_reaches(self) -> None:
        lines, status = linted()
        self.assertEqual(lines, ['30: chart Pump, state inner: nothing reaches it: give a row the target `to = "inner"`, or leave it out'])
        self.assertEqual(status, 1)

    def test_a_state_within_one_that_is_reached_by_a_row_of_its_own_is_not_reached(self) -> None:
        lines, _ = linted(('on = "GO", to = "idle"', 'on = "GO", to = "inner"'))
        self.assertEqual([line.partition(":")[0] for line in lines], ["30"])

    def test_a_publication_for_nobody(self) -> None:
        self.found(
            ["44: GO is published, and no object subscribes to it: write `subscribe GO` into the `init_do` of a chart that takes it, or post it"],
            ('init_do = ["subscribe GO"]\n', "init_do = []\n"))

    def test_a_signal_that_nobody_posts(self) -> None:
        unposted = ("say p1; publish GO", "say p1")
        self.found([], unposted)
        self.found(["8: signal GO: no chart and no stimulus posts it, so its rows are never taken: post it, or leave it out"],
                   unposted, stimuli="source 1\npost tank DATA(3)\n")
        self.found([], unposted, stimuli="source 1\npublish GO\n")
        self.found(["14: signal OLD: no chart posts it and no row takes it: leave it out"], ("params = 1\n", "params = 1\n[[signal]]\nname = \"OLD\"\nstatic = true\n"))

    def test_a_timer_posts_its_signal_only_where_it_is_armed(self) -> None:
        timer = ('init = "only"\n', 'init = "only"\ntimer = [{ name = "T", signal = "TICK", rate = 0 }]\n')
        signal = ("params = 1\n", "params = 1\n[[signal]]\nname = \"TICK\"\nstatic = true\n")
        self.found(["14: signal TICK: no chart posts it and no row takes it: leave it out"], timer, signal)
        self.found([], (timer[0], timer[1] + 'init_do = ["arm T(1, 0)"]\n'), signal)

    def test_a_row_that_an_earlier_one_hides(self) -> None:
        said = "is never taken: row 1 has the same signal and the same guard; change its guard, or leave it out"
        self.found([f"23: chart Pump, state idle, row 2 (on GO) {said}"],
                   ('  { on = "GO", to = "busy" },\n', '  { on = "GO", when = "ok  ==  1", to = "busy" },\n  { on = "GO", to = "busy" },\n'))

    def test_guards_that_are_always_the_same(self) -> None:
        self.found(["22: chart Pump, state idle, row 1 (on GO) is never taken: its guard is always 0; change its guard, or leave it out"],
                   ('when = "ok == 1"', 'when = "1 > 2"'))
        self.found(["23: chart Pump, state idle, row 2 (on GO) is never taken: row 1 takes each GO before it; change its guard, or leave it out"],
                   ('when = "ok == 1"', 'when = "2 > 1"'))

    def test_a_state_behind_a_row_that_is_never_taken(self) -> None:
        lines, _ = linted(CLEAN, ('  { on = "GO", to = "busy" },\n', ""), ('when = "ok == 1"', 'when = "0"'))
        self.assertEqual([line.partition(":")[0] for line in lines], ["22", "26", "30"])

    def test_defer_without_room(self) -> None:
        self.found(["52: object tank keeps no deferred events, and its chart Tank defers: write `defer = 4`, say, into its table"],
                   ("locked 2 [say p1; publish GO]", "locked 2 [defer; publish GO]"))

    def test_a_margin_that_is_never_free(self) -> None:
        self.found(["22: `post tank DATA(1) margin 3` never posts: the queue of tank has 3 places and more than 3 must be free; lower the margin, or raise `queue`"],
                   ("margin 1", "margin 3"))
        self.found([], ("margin 1", "margin 2"))
        self.found(["22: `post me GO margin 7` never posts: the queue of its own of pump has 3 places and more than 7 must be free; "
                    "lower the margin, or raise `queue`"], ("post tank DATA(1) margin 1", "post me GO margin 7"))

    def test_a_reserve_that_is_never_free(self) -> None:
        self.found(["22: `post tank DATA(1) reserve 4` never makes its event: its pool has 4 blocks and more than 4 must be free; lower the reserve, or raise `blocks`"],
                   ("margin 1", "reserve 4"))

    def test_a_start_that_posts_to_a_later_one(self) -> None:
        self.found(["17: pump posts in its start to tank, which starts later: QP/C asserts there; start tank first, or post from a row"],
                   ('init_do = ["subscribe GO"]', 'init_do = ["subscribe GO", "post tank DATA(7)"]'))
        self.found(["21: pump posts in its start to tank, which starts later: QP/C asserts there; start tank first, or post from a row"],
                   ('name = "idle"\n', 'name = "idle"\nentry = ["post tank DATA(7)"]\n'))


class Examples(unittest.TestCase):
    """The examples have nothing to be told of."""

    def test_each_is_clean(self) -> None:
        for path in sorted((TOP / "examples").rglob("*.toml")):
            if path.name == "cases.toml":
                continue
            with self.subTest(path.name), contextlib.redirect_stdout(io.StringIO()) as said:
                self.assertEqual((main([str(path)]), said.getvalue()), (0, ""))


class Words(unittest.TestCase):
    """What isn't a call, and files that can't be read."""

    def refused(self, words: list[str]) -> str:
        with contextlib.redirect_stderr(io.StringIO()) as said:
            self.assertEqual(main(words), 2)
        return said.getvalue()

    def test_words(self) -> None:
        for words in ([], ["--all", "x"]):
            self.assertIn("usage: qp lint SYSTEM", self.refused(words))

    def test_files(self) -> None:
        self.assertEqual(self.refused(["nowhere.toml"]), "qp lint: nowhere.toml: absent\n")
        with tempfile.TemporaryDirectory() as folder:
            path = Path(folder, "s.toml")
            path.write_text("qp = 2\n")
            self.assertEqual(self.refused([str(path)]), f"qp lint: {path}: qp: isn't 1\n")
            path.write_text(SYSTEM.replace("say p1;", "speak p1;"))
            self.assertIn("isn't an action", self.refused([str(path)]))


class Positions(unittest.TestCase):
    """The line of each value, kept while the file is read."""

    def test_headers_and_members(self) -> None:
        lines = read_lines(SYSTEM.encode())
        for path, line in {
            "qp": 1, "pool.1": 3, "pool.1.blocks": 5, "signal.2.params": 12, "chart.1.init_do.1": 17, "chart.1.state.1.row": 21,
            "chart.1.state.1.row.1.when": 22, "chart.1.state.1.row.2": 23, "chart.1.state.3.parent": 31, "chart.2.state.1.row.1.do.1": 43,
            "object.2.queue": 55,
        }.items():
            with self.subTest(path):
                self.assertEqual(lines.line_of(path), line)

    def test_texts_comments_and_dotted_keys(self) -> None:
        text = ('a.b = "x # no comment" # one\n"k" = \'\'\'\n[[no.header]]\n\'\'\'\nlist = [ # of texts\n  "a\\"]",\n\n  [1, 2], { z = 3,\n w = 4 }\n]\n'
                '[t.u]\nx = 1979-05-27 07:32:00\n[[v]]\n[v.w]\ny = 1\n[[v]]\n[[v.z]]\ny = """\n\\"""\n"""\nq = +1_000\n')
        lines = read_lines(text.encode())
        for path, line in {
            "a": 1, "a.b": 1, "k": 2, "list": 5, "list.1": 6, "list.2": 8, "list.2.2": 8, "list.3.z": 8, "list.3.w": 9, "t.u": 11, "t.u.x": 12,
            "v.1": 13, "v.1.w.y": 15, "v.2": 16, "v.2.z.1": 17, "v.2.z.1.y": 18, "v.2.z.1.q": 21, "v.2.z.1.nothing": 17, "nowhere": 1,
        }.items():
            with self.subTest(path):
                self.assertEqual(lines.line_of(path), line)

    def test_a_byte_order_mark_and_windows_line_ends(self) -> None:
        self.assertEqual(read_lines("\ufeffqp = 1\r\nx = [1,\r\n2]\r\n".encode()).line_of("x.2"), 3)

    def test_what_is_not_toml_ends(self) -> None:
        for text in ("a = [", "a = {", "[[", "= 1", 'a = "', "a = '''", "a.\nb", "a = [1 2]", "}", "a = { b = 1 c = 2 }"):
            with self.subTest(text):
                self.assertGreaterEqual(read_lines(text.encode()).line_of("a"), 1)


if __name__ == "__main__":
    unittest.main()
