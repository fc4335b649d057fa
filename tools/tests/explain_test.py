"""Refusals in words: the slips, each kind of line, and the words of a call."""

import contextlib
import io
import os
import re
import subprocess
import tempfile
import time
import unittest
import unittest.mock
from collections.abc import Iterator
from pathlib import Path

from qptools.changes import change_all
from qptools.explain.command import explanation, main
from qptools.explain.forms import FORMS, form_of
from qptools.explain.habits import habit_in_stimuli, habit_in_text
from qptools.explain.hints import hints
from qptools.explain.refusal import Refusal, read_refusal
from qptools.explain.runs import explain_long_stop, explain_stop
from qptools.explain.toml_faults import toml_habit
from qptools.explain.words import explain_words
from qptools.program import TOP, Answer, is_built
from qpviewer.files import read_run
from qpviewer.holders import Holders
from qpviewer.journal import Record, read_journal
from qpviewer.naming import Names
from qpviewer.system import read_system

CLOCK = TOP / "examples" / "clock"
LAMP = TOP / "examples" / "lamp.toml"
JUDGED = TOP / "crates" / "qp_verdicts" / "data"
#: What stands in the place of the program's line where it says nothing.
NOTHING = "-"


def slips() -> list[dict[str, list[str]]]:
    """The blocks of the slips: each key with its lines."""
    found = []
    for block in (TOP / "tools" / "slips.txt").read_text().split("\n\n"):
        lines = [line.split(": ", 1) for line in block.splitlines() if not line.startswith("#")]
        keys: dict[str, list[str]] = {}
        for key, value in lines:
            keys.setdefault(key, []).append(value)
        found += [keys] if keys else []
    return found


@contextlib.contextmanager
def folder_with(files: dict[str, str]) -> Iterator[Path]:
    """A folder with these files, in which the test stands meanwhile."""
    before = Path.cwd()
    with tempfile.TemporaryDirectory() as folder:
        for name, text in files.items():
            Path(folder, name).write_text(text, newline="")
        os.chdir(folder)
        try:
            yield Path(folder)
        finally:
            os.chdir(before)


def clock_files() -> dict[str, str]:
    files = {name: (CLOCK / name).read_text() for name in ("clock.toml", "clock.txt")}
    return files | {"clock-run.txt": "qp 1 0 100000\nlane 0\nend 0\n"}


class Slips(unittest.TestCase):
    """What is said of each slip."""

    def test_each_has_its_explanation(self) -> None:
        self.assertGreaterEqual(len(slips()), 78)
        for slip in slips():
            with self.subTest(slip["slip"][0]):
                says = slip["says"][0]
                if says == NOTHING or "assertion" in says:
                    continue
                files, words = clock_files(), slip["words"][0].split()
                change_all(files, words, slip["change"][0])
                with folder_with(files):
                    self.assertEqual(explanation(words, f"{says}\n"), slip["means"])

    def test_what_is_taken_without_a_word(self) -> None:
        files = clock_files()
        change_all(files, [], "no `defer = 1`")
        told = hints(read_system(files["clock.toml"].encode()))
        self.assertEqual(len(told), 1)
        self.assertIn("state ringing, row 1 (on SET_ALARM), action 1 has `defer`, and object clock has no `defer = N`", told[0])
        self.assertEqual(hints(read_system((CLOCK / "clock.toml").read_bytes())), [])

    def test_each_has_a_row_in_trouble(self) -> None:
        page = (TOP / "docs" / "TROUBLE.md").read_text().replace("\\|", "|")
        for slip in slips():
            with self.subTest(slip["slip"][0]):
                says = slip["says"][0]
                says = "nothing" if says == NOTHING else f"`{says}`"
                self.assertIn(f"| {slip['change'][0]} | {says} |", page)

    @unittest.skipUnless(is_built(), "the program isn't built")
    def test_each_is_what_the_program_says(self) -> None:
        for slip in slips():
            with self.subTest(slip["slip"][0]):
                files, words = clock_files(), slip["words"][0].split()
                if "clock-run.txt" in words:
                    run = subprocess.run([TOP / "qp", "run", CLOCK / "clock.toml", CLOCK / "clock.txt"], capture_output=True, text=True)
                    files["clock-run.txt"] = run.stdout
                change_all(files, words, slip["change"][0])
                with folder_with(files):
                    told = io.StringIO()
                    with contextlib.redirect_stdout(told):
                        status = main(words)
                    plain = subprocess.run([TOP / "qp", *words], capture_output=True, text=True)
                    said = [] if slip["says"] == [NOTHING] else slip["says"]
                    self.assertEqual(told.getvalue().splitlines(), said + [f"    {line}" for line in slip["means"]])
                    self.assertEqual((status, "".join(f"{line}\n" for line in said)), (plain.returncode, plain.stderr))


class Lines(unittest.TestCase):
    """The program's lines, read."""

    def test_kinds(self) -> None:
        table = {
            "qp: a b.toml: 7 chart.1.init": Refusal("fault", "a b.toml", 7, "chart.1.init"),
            "qp: a.toml: 4 ": Refusal("fault", "a.toml", 4, ""),
            "qp: a.toml: 1 -": Refusal("fault", "a.toml", 1, "-"),
            "qp: lost.toml: absent": Refusal("absent", "lost.toml"),
            "qp: big.txt: too long 67108865": Refusal("too long", "big.txt", 0, "67108865"),
            "qp: assertion 2 in lane 0": Refusal("assertion", "", 2, "0"),
            "qp: spent in lane 3": Refusal("spent", "", 0, "3"),
            "qp: broken D12 block 1 1": Refusal("broken", "", 0, "broken D12 block 1 1"),
            "qp: bad words": Refusal("bad words"), "qp: memory": Refusal("memory"),
        }
        for line, refusal in table.items():
            with self.subTest(line):
                self.assertEqual(read_refusal(f"something before\n{line}\n"), refusal)
        self.assertIsNone(read_refusal("qp: not built\n"))

    def test_words(self) -> None:
        table = {
            (): "no command: `qp help` has them",
            ("rnu", "a", "b"): "no command is called 'rnu'; did you mean `run`?",
            ("build", "now"): "`build` is answered by the launcher: it takes no words",
            ("--help", "run"): "`--help` is answered by the launcher: it stands alone or behind a command: qp run --help",
            ("help", "run", "gen"): "`help` is answered by the launcher: it takes one command at most: qp help run",
            ("version",): "no command is called 'version'; did you mean `--version`?",
            ("-v",): "no command is called '-v'; did you mean `--version`?",
            ("run", "a"): "STIMULI is missing: qp run SYSTEM STIMULI",
            ("run",): "SYSTEM and STIMULI are missing: qp run SYSTEM STIMULI",
            ("check", "a", "b", "c", "d"): "'d' is a word too many: qp check SYSTEM STIMULI JOURNAL",
            ("run", "--trace", "a", "b"): "`run` has no option '--trace'; it has --kernel, --budget, --out, --form",
            ("run", "-k", "qv", "a", "b"): "`run` has no option '-k'; did you mean `--kernel`?",
            ("check", "-x", "a", "b", "c"): "`check` has no option '-x'; it has none",
            ("run", "a", "b", "b"): "'b' stands twice: qp run SYSTEM STIMULI",
            ("run", "--kernal", "qv", "a", "b"): "`run` has no option '--kernal'; did you mean `--kernel`?",
            ("run", "--kernel", "rtos", "a", "b"): "--kernel is sim, qv, qk, port or wait, not 'rtos'",
            ("run", "--kernel", "port", "--form", "3", "a", "b"): "--form is 1 or 2, not '3'",
            ("run", "--kernel", "qv", "--form=1", "a", "b"): "a journal of qv has form 2 alone",
            ("run", "--budget", "0", "a", "b"): "--budget is a number, 1 to 1000000, not '0'",
            ("run", "a", "b", "--budget"): "--budget has no value",
            ("run", "--form", "2", "--form", "2", "a", "b"): "--form stands twice",
            ("gen", "1001"): "N is a number, 1 to 1000, not '1001'",
        }
        for words, said in table.items():
            with self.subTest(words):
                self.assertEqual(explain_words(list(words)), said)

    def test_an_absent_file(self) -> None:
        with folder_with({"Lamp.toml": ""}) as folder:
            told = explanation(["run", "lamp.toml", "go.txt"], "qp: lamp.toml: absent\n")
            self.assertEqual(told, [f"there is no file lamp.toml in {folder.resolve()}; did you mean Lamp.toml?"])

    def test_files_in_the_place_of_others(self) -> None:
        files = {**clock_files(), "clock-run.txt": "qp 1 0 100000\nlane 0\nend 0\n"}
        table = {
            "run clock.txt clock.toml": ("clock.txt: 1 -", "the files stand in another order: qp run clock.toml clock.txt"),
            "check clock.toml clock-run.txt clock.txt":
                ("clock-run.txt: 1 1", "the files stand in another order: qp check clock.toml clock.txt clock-run.txt"),
            "check clock.toml clock.txt clock.txt":
                ("clock.txt: 1 1", "clock.txt stands twice, as STIMULI and as JOURNAL: qp check SYSTEM STIMULI JOURNAL"),
        }
        for words, (says, means) in table.items():
            with self.subTest(words), folder_with(files):
                self.assertEqual(explanation(words.split(), f"qp: {says}\n"), [means])

    def test_what_cannot_be_read(self) -> None:
        with folder_with({"go.txt": "", "a.toml": ""}) as folder:
            (folder / "inner").mkdir()
            self.assertEqual(explanation(["run", "inner", "go.txt"], "qp: read fault\n"), ["inner: is a folder: name a file in it"])
            self.assertEqual(explanation(["run", ".", "go.txt"], "qp: read fault\n"), [".: is a folder: name a file in it, as a.toml, go.txt"])

    def test_each_text_has_a_form(self) -> None:
        """Where no habit is known, the form of the action's word is told, and no page."""
        for word, form in FORMS.items():
            self.assertEqual(form_of(f"{word} % %", False), f"write `{form}`")
        self.assertIn("`late = EXPRESSION`", form_of("late = % 1", False))
        self.assertIn("a guard is an expression", form_of("% 1", True))
        self.assertIn("begins with say, post", form_of("%", False))

    def test_faults_of_systems(self) -> None:
        """Each code on a change of the lamp, with words that its explanation has."""
        table = (
            ('no `queue = 1`', "3 object.1.queue", "object lamp, queue: is missing, and has no default"),
            ('`ring = 1` for `queue = 1`', "4 object.1", "`ring` is no key of this table"),
            ('`colour = 1` behind `qp = 1`', "4 ", "the top of the file: `colour` is no key of this table"),
            ('`colour = 1` behind `qp = 1`', "4 ", "the top of the file has the keys chart, object, pool, qp, signal"),
            ('`[[state]]\nname = "on"` for `[[chart.state]]\nname = "on"`', "4 ", "as a header it is [[chart.state]]"),
            ('`wheel = 1` for `queue = 1`', "4 object.1", "an object has the keys chart, defer, name, priority"),
            ('`queue = 256` for `queue = 1`', "5 object.1.queue", "object lamp, queue: must be 0 to 255"),
            ('`name = "off"` for `name = "on"`', "6 chart.1.state.2.name", "this name stands twice"),
            ('`parent = "on"` behind `name = "on"`', "10 chart.1.state.2.parent", "state on, parent: the state lies within itself"),
            ('`init = "on"` behind `name = "on"`', "12 chart.1.state.2.init", "on isn't within this state"),
            ('`[[chart.state.row]]`, `on = "GO"` behind `to = "on"`', "13 chart.1.state.1.row.2", "row 2 (on GO): an earlier row"),
            ('no `static = true`', "15 signal.1", "signal GO: its events need a pool"),
            ('`do = ["post you GO"]` for `to = "on"`', "7 chart.1.state.1.row.1.do.1", "action 1: you isn't declared"),
            ('`do = ["post lamp go"]` for `to = "on"`', "7 chart.1.state.1.row.1.do.1", "go isn't declared"),
            ('`on = "Q_EXIT_SIG"\nto` for `on = "GO"\nto`', "7 chart.1.state.1.row.1.on", "on exit stands in its `exit`"),
            ('`on = "INIT"\nto` for `on = "GO"\nto`', "7 chart.1.state.1.row.1.on", "initial transition is its `init`"),
            ('`parent = "QHsm_top"` behind `name = "on"`', "7 chart.1.state.2.parent", "a state at the top has no `parent`"),
        )
        for changed, says, words in table:
            with self.subTest(changed):
                files = {"lamp.toml": LAMP.read_text()}
                change_all(files, [], changed)
                with folder_with(files):
                    self.assertIn(words, " ".join(explanation(["run", "lamp.toml", "go.txt"], f"qp: lamp.toml: {says}\n")))

    def test_lines_that_arent_toml(self) -> None:
        """What may be wrong in a line, beside the line above it."""
        table = (
            ('row = [{ on = BTN_MODE, to = "h12" }]', "", "names and texts stand in quotes"),
            ("entry = [recall]", "", "names and texts stand in quotes"),
            ('{ on = "A", when = p1 > 0, to = "b" },', "row = [", "names and texts stand in quotes"),
            ("init = off", "", "names and texts stand in quotes"),
            ("queue: 5", "", "`=` stands between a key and its value, and no `:`"),
            ('{ on: "A" }', "", "`=` stands between a key and its value, and no `:`"),
            ("queue == 5", "", "one `=` stands between a key and its value"), ("queue := 5", "", "one `=` stands between a key and its value"),
            ("static = TRUE", "", "write `true`"),
            ("queue = 5;", "", "no `;` ends a line"), ("queue = 5,", "", "no comma ends a line, but within a list"),
            ('{ on = "A", do = ["defer" "say 1"] },', "row = [", "a comma is missing between two texts"),
            ('{ on = "A" to = "b" },', "row = [", "a comma is missing between two keys"),
            ('{ on = "A" },', '{ on = "B" }', "a comma is missing behind the line above"),
            ("queue = 5 // five", "", "a comment begins with `#`"), ('name = "a', "", "a text ends with the quote that it began with"),
            ("[[chart.state]]", 'row = [{ on = "A" }', "a bracket of the line above isn't closed"),
            ("x = 1", "y = [1", "a bracket of the line above isn't closed"),
            ("x = 0x1G", "", ""), ('x = "a" # it\'s "quoted', "", ""),
        )
        for line, before, said in table:
            with self.subTest(line):
                self.assertEqual(toml_habit(line, before), said)

    def test_what_stands_twice(self) -> None:
        table = {
            "queue = 2\n": "a key stands twice in its table", "[x]\n[x]\n": "tables of a list have double brackets, as [[object]]",
            "x = { a = 1, a = 2 }\n": "a key stands twice in its table",
        }
        for more, said in table.items():
            with self.subTest(more), folder_with({"lamp.toml": LAMP.read_text() + more}):
                told = explanation(["run", "lamp.toml", "go.txt"], "qp: lamp.toml: 1 -\n")
                self.assertIn(": isn't TOML: ", told[0])
                self.assertIn(said, told[-1])

    def test_a_journal_as_text_isnt_frames(self) -> None:
        with folder_with({"run.txt": "qp 1 0 100000\nlane 0\nend 0\n"}):
            self.assertIn("this is a journal as text", " ".join(explanation(["decode", "run.txt"], "qp: run.txt: 4 0\n")))

    def test_verdicts(self) -> None:
        """A broken journal is told with the record and its line."""
        files = {name: path.read_text() for name, path in (
            ("lamp.toml", JUDGED / "systems" / "lamp.toml"), ("go.txt", JUDGED / "stimuli" / "go.txt"),
            ("run.txt", JUDGED / "journals" / "switched.txt"))}
        files["run.txt"] = re.sub("look 0 2 0", "look 0 2 1", files["run.txt"])
        with folder_with(files):
            told = explanation(["check", "lamp.toml", "go.txt", "run.txt"], "qp: broken D19 lane 0\n")
        line = files["run.txt"].splitlines().index("look 0 2 1") + 1
        self.assertEqual(told[1], f"look first at line {line} of the journal, `look 0 2 1`: kernel begins look 2, with floor 1")
        self.assertEqual(told[-1], "to see it: view/qpview lamp.toml go.txt run.txt 'broken D19 lane 0' > run.html")

    def test_stops(self) -> None:
        """A run that was stopped is told by its journal, where that is at hand."""
        names = (("systems", "crowded.toml"), ("stimuli", "go.txt"), ("journals", "crowded-out.txt"))
        files = {name: (JUDGED / folder / name).read_text() for folder, name in names}
        with folder_with(files):
            told = explanation(["run", "crowded.toml", "go.txt"], "qp: assertion 1 in lane 0\n", files["crowded-out.txt"].encode())
        self.assertEqual(told[0], "line 12 of the journal, `assert 1 1 1 2 0 1`: lamp asserts: the queue of lamp is full")
        self.assertIn("in lamp's step of GO", told[1])
        self.assertEqual(told[2], "the action is `post me X`")

    def test_who_holds_the_blocks_of_an_empty_pool(self) -> None:
        """Each block's references lie in a queue, a step, a deferred list, or a call that goes on."""
        records = read_journal(b"\n".join((
            b"qp 1 0 100000", b"lane 0", b"new 1 1 0 0 0 9 7", b"inc 1 1 0 0", b"post 1 1 1 0 0 1 0 0", b"new 0 1 1 1 0 9 8", b"inc 0 1 1 0",
            b"post 0 1 2 0 0 1 1 0", b"took 1 2 0 1 1 0 0", b"inc 1 1 0 1", b"defer 1 1 0 1", b"dec 1 1 0 2 0", b"new 1 1 2 2 0 9 9", b"inc 1 1 2 0",
            b"new 1 2 0 0 0 9 1", b"end 3", b""))).lanes[0]
        names = Names(read_system((CLOCK / "clock.toml").read_bytes()))
        holders = Holders(names)
        holders.tell(records[:-1])
        self.assertEqual(holders.of_pool(1), [
            "block 1.0 SET_ALARM(7): deferred by clock", "block 1.1 SET_ALARM(8): in the queue of clock",
            "block 1.2 SET_ALARM(9): in a call of clock"])
        holders.tell([Record("dec", (1, 1, 0, 3, 1), ""), Record("back", (1, 1, 3, 0, 4), "")])
        self.assertEqual(len(holders.of_pool(1)), 2)

    def test_stops_of_long_journals(self) -> None:
        """Where only the last record of each lane is looked at, the same record is told, and the same advice."""
        for line in (JUDGED / "lawful.txt").read_text().splitlines()[1:]:
            name, *files = line.split("\t")
            system, stimuli, journal = (JUDGED / folder / file for folder, file in zip(("systems", "stimuli", "journals"), files))
            whole = explain_stop(read_run(str(system), str(stimuli), str(journal)))
            with self.subTest(name):
                self.assertEqual(explain_long_stop(read_system(system.read_bytes()), journal.read_bytes()), whole[:1] + whole[1:][-1:])

    def test_what_is_too_long_to_explain(self) -> None:
        """A large file isn't read, and what is read of hostile ones is told in a few lines."""
        many = "qp = 1\n" + "".join(f"k{k} = 1\n" for k in range(20_000))
        wide = f"qp = 1\n{'x' * 500_000} = 1\n"
        with folder_with({"many.toml": many, "wide.toml": wide, "long.toml": many * 8, "go.txt": ""}):
            told = explanation(["run", "many.toml", "go.txt"], "qp: many.toml: 4 \n")
            self.assertEqual(told[0], "many.toml:2: the top of the file: `k0`, `k1`, `k2` and 19997 more are no keys of this table")
            self.assertLessEqual(max(map(len, told)), 300)
            self.assertLess(len(told), 8)
            self.assertEqual(explanation(["run", "long.toml", "go.txt"], "qp: long.toml: 1 -\n"),
                             [f"long.toml has {len(many) * 8} bytes; what is longer than 1048576 isn't explained"])
            self.assertLess(sum(map(len, explanation(["run", "wide.toml", "go.txt"], "qp: wide.toml: 4 \n"))), 2000)

    def test_long_texts_are_explained_in_no_time(self) -> None:
        """The patterns of habits take more than linear time, so of a long text its ends alone are looked at."""
        for letters in ("x", "1", "x.", "(", "1+1-"):
            for text in (letters * 200_000, f"{letters * 200_000};"):
                begun = time.monotonic()
                habit_in_text(text, False), habit_in_text(text, True), habit_in_stimuli(text)
                self.assertLess(time.monotonic() - begun, 2, letters)
        self.assertEqual(habit_in_stimuli(f"{'x' * 200_000};"), "no `;` ends a line")

    def test_what_python_reads_and_the_program_doesnt(self) -> None:
        """Numbers beyond 64 bits, and what lies too deep; and a number that Python doesn't read either."""
        table = {
            "x = 9223372036854775808": "isn't TOML: x is beyond 64 bits with a sign",
            f"x = {'[' * 90}{']' * 90}": "isn't TOML: lists, tables and names of a dotted key stand at most 80 deep",
            f"x{'.x' * 90} = 1": "isn't TOML: lists, tables and names of a dotted key stand at most 80 deep",
            f"x = {'[' * 5000}{']' * 5000}": "isn't TOML that this reader takes: it nests too deep",
            f"x = {'9' * 5000}": "isn't TOML that this reader takes: a number is too long",
        }
        for line, said in table.items():
            with self.subTest(said), folder_with({"long.toml": f"qp = 1\n{line}\n", "go.txt": ""}):
                self.assertRegex(explanation(["run", "long.toml", "go.txt"], "qp: long.toml: 1 -\n")[0], f"^long.toml:[12]: {re.escape(said)}$")

    def test_a_text_that_is_too_long_isnt_read(self) -> None:
        """One with 200,000 places would be read deeper than Python reads."""
        for code, text in ((7, f"say x{'+1' * 200_000}"), (8, "x" * 400_000), (9, f"say p1{'+1' * 200_000}")):
            files = {"lamp.toml": LAMP.read_text().replace('to = "on"', f'do = ["{text}"]'), "go.txt": ""}
            with self.subTest(code), folder_with(files):
                told = explanation(["run", "lamp.toml", "go.txt"], f"qp: lamp.toml: {code} chart.1.state.1.row.1.do.1\n")
                line = 1 + files["lamp.toml"][:files["lamp.toml"].index(text)].count("\n")
                self.assertTrue(told[0].startswith(f"lamp.toml:{line}: chart lamp, state off, row 1 (on GO), action 1: "))
                self.assertEqual(told[-1], f"a text has at most 200 bytes, this one {len(text)}")

    def test_calls_of_qp_and_near_words(self) -> None:
        """What a text that isn't an action, or a line that isn't a stimulus, may have been meant as."""
        texts = {
            "QACTIVE_POST(AO_Table, Q_NEW(TableEvt, DONE_SIG), me);": "QP's `QACTIVE_POST` is `post OBJECT EVENT` here",
            "QTimeEvt_armX(&me->timeEvt, 5, 0)": "QP's `QTimeEvt_armX` is `arm TIMER(TICKS, INTERVAL)` here",
            "return Q_TRAN(&setting)": "`Q_TRAN` is no action: a transition is the `to` of a row, and without `to` the row stays in its state",
            "pots me GO": "did you mean `post`?", "POST me GO": "did you mean `post`?", "alarm == 5": "`==` compares, `=` assigns",
            "alarm := 5": "`=` assigns: write `alarm = 5`", "post me, GO": "no comma stands behind the object: write `post me ..`",
            "arm CLOCK 1 0": "numbers of ticks stand in parentheses: write `arm CLOCK(1, 0)`", "disarm T()": "`disarm` takes a name alone: write `disarm T`",
            "publish GO()": "no empty parentheses: write `GO`", "now = abs(now)": "there are no functions, such as `abs`: only variables, parameters and numbers",
            "unlock": "a ceiling is raised for its own actions alone: write `locked 3 [a = 1; b = 2]`",
            "lock(3)": "a ceiling is raised for its own actions alone: write `locked 3 [a = 1; b = 2]`",
            "POST(me, GO)": "`post` isn't a function: it stands without parentheses", "now = now + 1;": "no `;` ends a text",
            "QTIMEEVT_TICK_X(0U, &l_clock);": "QP's `QTIMEEVT_TICK_X` is `tick RATE` here",
            "Q_TRAN(&setting)": "`Q_TRAN` is no action: a transition is the `to` of a row, and without `to` the row stays in its state",
            "now = (uint8_t)now + 1": "there are no casts: each value is a whole number of 64 bits",
            "int x = 5": "no variable is declared here: it stands in `vars` of the chart, with its first value",
            "if (now > 5) rung = 1": "a condition is the `when` of a row", "switch (now)": "there is no `switch`: write a row for each case, with guards",
            "while (now < 5)": "there is no `while`: an object posts an event to itself, or a timer has an interval",
        }
        for text, said in texts.items():
            with self.subTest(text):
                self.assertEqual(habit_in_text(text, False), said)
        called = ("no function is called, such as `BSP_buzz`: `say 1` writes a number into the journal, "
                  "and what another object does is posted to it")
        for text in ("BSP_buzz()", "BSP_buzz(now, 3);", "BSP_buzz (p1)"):
            self.assertEqual(habit_in_text(text, False), called)
        for text in ("BSP_isOn()", "now > 3 && BSP_isOn()", "BSP_isOn(now)", "!BSP_isOn()"):
            self.assertEqual(habit_in_text(text, True), "there are no functions, such as `BSP_isOn`: only variables, parameters and numbers")
        lines = {
            "QACTIVE_POST(clock, GO)": "QP's `QACTIVE_POST` is `post OBJECT EVENT` here", "ticks 0": "did you mean `tick`?",
            "settle 1": "`settle` stands alone: it waits until each queue is empty", "arm T(1,0)": "`arm` is an action of a chart and no stimulus",
            "post clock, GO": "no comma stands between tokens, but for those within parentheses",
            "wait 5": "time passes by `tick RATE`; `settle` waits until each queue is empty",
            "post clock GO(1.5)": "numbers are whole: count in a smaller unit, as tenths", "frobnicate": "",
            "tick 0 5": "a line is one stimulus: write the `tick` as often as it happens",
            "post clock GO x3": "a line is one stimulus: write the `post` as often as it happens",
            "source 1:": "a source begins with `source N` alone, where N is 1 for the first one, 2 for the next",
        }
        for line, said in lines.items():
            with self.subTest(line):
                self.assertEqual(habit_in_stimuli(line), said)

    def test_a_pipe_isnt_read_again(self) -> None:
        with folder_with({}) as folder:
            os.mkfifo(folder / "pipe")
            self.assertEqual(explanation(["run", "pipe", "go.txt"], "qp: pipe: 1 -\n"),
                             ["pipe isn't a file on a disk, so it isn't read again"])

    def test_stops_with_threads(self) -> None:
        """A run that has to be made once more is another one, which may end otherwise."""
        names = (("systems", "crowded.toml"), ("stimuli", "go.txt"), ("journals", "crowded-out.txt"))
        files = {name: (JUDGED / folder / name).read_text() for folder, name in names}
        words, note = ["run", "--kernel", "qk", "--out", "summary", "crowded.toml", "go.txt"], "qp: assertion 1 in lane 0\n"
        journal = files["crowded-out.txt"].encode()
        with folder_with(files):
            for other, said in ((note, "one more that ended so has this:"), ("qp: spent in lane 0\n", "one more ended otherwise")):
                with self.subTest(other), unittest.mock.patch("qptools.explain.command.call", return_value=Answer(journal, other, 3)):
                    told = explanation(words, note)
                    self.assertIn(said, told[0])
                    self.assertEqual(len(told) > 1, other == note)

    def test_want_of_memory(self) -> None:
        """It is told alike under each kernel: a thread that the system didn't make ends no run."""
        for kernel in ("sim", "port", "wait"):
            told = explanation(["run", "--kernel", kernel, "lamp.toml", "go.txt"], "qp: memory\n")
            self.assertEqual([line.split(":")[0] for line in told], ["memory was refused"], kernel)


@unittest.skipUnless(is_built(), "the program isn't built")
class Launcher(unittest.TestCase):
    """What the launcher says, beside what the program says."""

    def call(self, *words: str) -> tuple[int, str, str]:
        ran = subprocess.run([TOP / "qp", *words], capture_output=True, text=True, cwd=TOP / "examples")
        return ran.returncode, ran.stdout, ran.stderr

    def test_bad_words_are_named_below_the_line(self) -> None:
        self.assertEqual(self.call("run", "lamp.toml"), (1, "", "qp: bad words\n    STIMULI is missing: qp run SYSTEM STIMULI\n"))
        self.assertEqual(self.call("run", "--kernel=qv", "--form", "1", "lamp.toml", "go.txt")[2].splitlines()[1:],
                         ["    a journal of qv has form 2 alone"])

    def test_explain_is_a_word_of_the_launcher(self) -> None:
        status, said, noted = self.call("explain", "run", "lost.toml", "go.txt")
        self.assertEqual((status, noted), (2, ""))
        self.assertTrue(said.startswith("qp: lost.toml: absent\n    there is no file lost.toml in "))

    def test_nothing_stands_below_other_lines_in_a_pipe(self) -> None:
        self.assertEqual(self.call("run", "lost.toml", "go.txt"), (2, "", "qp: lost.toml: absent\n"))

    def test_right_words_are_the_programs(self) -> None:
        for words in (("run", "lamp.toml", "go.txt"), ("run", "--out", "summary", "lamp.toml", "go.txt"),
                      ("run", "--kernel=qv", "--budget", "7", "--", "lamp.toml", "go.txt"), ("run", "--kernel", "qk", "lamp.toml", "go.txt"),
                      ("run", "--kernel=port", "--form=2", "lamp.toml", "go.txt"), ("run", "--kernel", "wait", "lamp.toml", "go.txt"), ("gen", "1")):
            self.assertEqual(self.call(*words)[0::2], (0, ""), words)

    def test_a_terminal_has_the_explanation(self) -> None:
        answer = self.on_terminal(["./qp", "run", "examples/lost.toml", "examples/go.txt"])
        self.assertIn("qp: examples/lost.toml: absent\r\n    there is no file examples/lost.toml", answer)

    def on_terminal(self, words: list[str]) -> str:
        master, slave = os.openpty()
        subprocess.run(words, cwd=TOP, stdin=subprocess.DEVNULL, stdout=subprocess.DEVNULL, stderr=slave)
        os.close(slave)
        said = b""
        with contextlib.suppress(OSError):
            while piece := os.read(master, 4096):
                said += piece
        os.close(master)
        return said.decode()


class Help(unittest.TestCase):
    """The launcher answers these at once, built or not."""

    def test_help(self) -> None:
        def call(*words: str) -> tuple[int, str, str]:
            ran = subprocess.run([TOP / "qp", *words], capture_output=True, text=True)
            return ran.returncode, ran.stdout, ran.stderr

        page = call("help")[1]
        self.assertEqual({call("--help")[1], call("-h")[1]}, {page})
        self.assertEqual(call(), (1, "", page))
        part = call("help", "run")
        self.assertEqual(part, call("run", "--help"))
        self.assertEqual(part, call("run", "-h"))
        self.assertTrue(part[1].startswith("  run SYSTEM STIMULI"))
        self.assertNotIn("decode", part[1])
        self.assertEqual(call("help", "frob")[0], 1)
