"""What `tools/qptest` says of cases: where each failure stands, the JUnit file, cases by their names, and runs that are made again."""

import contextlib
import io
import shutil
import signal
import subprocess
import tempfile
import time
import unittest
import unittest.mock
from collections.abc import Callable
from pathlib import Path
from xml.etree import ElementTree

from qptools.cases import watch
from qptools.cases.case_file import CaseFault, read_cases
from qptools.cases.command import main
from qptools.cases.junit import junit_of
from qptools.cases.outcome import NoRun, no_run
from qptools.cases.tried import Failure, Tried
from qptools.cases.words import COMMANDS, USAGE, BadWords, read_words
from qptools.program import TOP, Answer, is_built

EXAMPLES = TOP / "examples"
SCHEMA = TOP / "tools" / "tests" / "junit.xsd"
CASES = """# three cases

[[case]]
name = "on"
kernel = "sim"
system = "lamp.toml"
stimuli = '''
source 1
post lamp GO
'''
object.lamp.state = "on"
object.lamp.took = 1

[[case]]
name = "off"
system = "lamp.toml"
stimuli = "go.txt"
end = 0
[case.object.lamp]
took = 2
vars = { x = 1 }

[[case]]
name = "lost"
system = "lost.toml"
stimuli = "go.txt"
"""


def answer(*words: str) -> tuple[int, str, str]:
    told, noted = io.StringIO(), io.StringIO()
    with contextlib.redirect_stdout(told), contextlib.redirect_stderr(noted):
        status = main(list(words))
    return status, told.getvalue(), noted.getvalue()


def hear_interrupts() -> None:
    """Interrupts end a process, also where the tests run in the background of a shell, which has them ignored."""
    signal.signal(signal.SIGINT, signal.SIG_DFL)


def junit_root(test: unittest.TestCase, data: bytes) -> ElementTree.Element:
    """The root of a JUnit file, which must have the form of the schema, as far as there is a reader of schemas."""
    if shutil.which("xmllint"):
        with tempfile.TemporaryDirectory() as folder:
            Path(folder, "junit.xml").write_bytes(data)
            ran = subprocess.run(["xmllint", "--noout", "--schema", SCHEMA, f"{folder}/junit.xml"], capture_output=True, text=True)
        test.assertEqual((ran.returncode, ran.stderr), (0, f"{folder}/junit.xml validates\n"))
    return ElementTree.fromstring(data)


class InFolder(unittest.TestCase):
    """A folder with the lamp."""

    def setUp(self) -> None:
        folder = tempfile.TemporaryDirectory()
        self.addCleanup(folder.cleanup)
        self.folder = Path(folder.name)
        self.cases = self.folder / "cases.toml"
        for name in ("lamp.toml", "go.txt"):
            shutil.copy(EXAMPLES / name, self.folder)
        self.cases.write_text(CASES)

    def line(self, text: str) -> int:
        """The line of the cases' file that has a text."""
        return self.cases.read_text().split("\n").index(text) + 1


class Places(InFolder):
    """`FILE:LINE` of what fails."""

    def test_keys(self) -> None:
        on, off, _ = read_cases(self.cases)
        table = (
            (on, "", "[[case]]"), (on, "object.lamp.took", "object.lamp.took = 1"), (on, "stimuli", "stimuli = '''"), (on, "end", "[[case]]"),
            (off, "end", "end = 0"), (off, "object.lamp.vars.x", "vars = { x = 1 }"), (off, "object.lamp.said", "[case.object.lamp]"),
        )
        for case, key, text in table:
            if text != "[[case]]":
                with self.subTest(key):
                    self.assertEqual(case.place(key), f"{self.cases}:{self.line(text)}")
        self.assertEqual((on.place(), on.place("end"), off.place()), (f"{self.cases}:3", f"{self.cases}:3", f"{self.cases}:14"))

    def test_lines_of_stimuli(self) -> None:
        """A text may begin behind its quotes or below them, and stand in one line."""
        on, off, _ = read_cases(self.cases)
        self.assertEqual(on.place_in_stimuli(2), f"{self.cases}:{self.line('post lamp GO')}")
        self.assertEqual(off.place_in_stimuli(2), f"{self.folder}/go.txt:2")
        for quoted, line in (('"""source 1\npost lamp GO"""', 5), ('"source 1\\npost lamp GO"', 4), ('"""\nsource 1\npost lamp GO"""', 6)):
            with self.subTest(quoted):
                self.cases.write_text(f'[[case]]\nname = "a"\nsystem = "lamp.toml"\nstimuli = {quoted}\n')
                self.assertEqual(read_cases(self.cases)[0].place_in_stimuli(2), f"{self.cases}:{line}")

    def test_faults(self) -> None:
        """A file of cases that can't be run is told with its line."""
        table = (
            ('[[case]]\nname = "a"\ncolour = 1\n', 3, "case a: 'colour' is no key"), ('[[case]]\nname = "a"\n', 1, "case a: system is missing"),
            ('[[case]]\nname = "a\n', 2, "isn't TOML: "), ("[[case]]\nname = [1,\n\n", 4, "isn't TOML: "), ("\nx = 1\n", 2, "has [[case]] tables"),
            ('[[case]]\nname = "a"\nobject.b = { took = 1,\\\n}', 3, "isn't TOML"),
            ('[[case]]\nname = "a"\nsystem = "s"\nstimuli = "t"\n[case.object.b]\ntook = "1"\n', 6, "object b: took must be a number"),
            ('[[case]]\nname = "a"\nsystem = "s"\nstimuli = "t"\nsummary = "lost.txt"\n', 5, "case a: summary: "),
        )
        for text, line, words in table:
            self.cases.write_text(text)
            with self.subTest(text), self.assertRaises(CaseFault) as raised:
                read_cases(self.cases)
            self.assertTrue(str(raised.exception).startswith(f"{self.cases}:{line}: "), raised.exception)
            self.assertIn(words, str(raised.exception))
        self.cases.write_bytes(b"\n# \xff\n")
        with self.assertRaisesRegex(CaseFault, ":2: isn't text in UTF-8"):
            read_cases(self.cases)

    @unittest.skipUnless(is_built(), "the program isn't built")
    def test_what_fails(self) -> None:
        """Is printed, and stands in the JUnit file."""
        file = self.folder / "junit.xml"
        status, printed, _ = answer("--junit", str(file), str(self.folder))
        self.assertEqual(status, 1)
        root = junit_root(self, file.read_bytes())
        self.assertEqual((root.get("tests"), root.get("failures"), root.get("errors")), ("15", "2", "5"))
        told = printed.splitlines()
        self.assertIn(f"{self.cases}:{self.line('took = 2')}: off, sim: lamp took 1 event, expected 2", told)
        self.assertIn(f"{self.cases}:{self.line('vars = { x = 1 }')}: off, sim: lamp has no variable x", told)
        at = told.index(f"FAIL  {self.folder}: lost, qk, judged alone")
        system = self.line('system = "lost.toml"')
        self.assertTrue(told[at + 1].startswith(f"{self.cases}:{system}: lost, qk: no run: there is no file {self.folder}/lost.toml"))
        self.assertEqual(told[at + 2].strip(), f"qp: {self.folder}/lost.toml: absent")

    @unittest.skipUnless(is_built(), "the program isn't built")
    def test_what_is_refused(self) -> None:
        """A system that isn't TOML, and stimuli in a file and in the case."""
        table = (("lamp.toml", "qp = 1", "qp =", "lamp.toml:{}: on, sim: no run: "),
                 ("go.txt", "post lamp GO", "post lamp DIM", "go.txt:{}: off, sim: no run: "),
                 ("cases.toml", "post lamp GO", "post lamp DIM", "cases.toml:{}: on, sim: no run: "))
        for name, old, new, head in table:
            with self.subTest(name):
                self.setUp()
                text = (self.folder / name).read_text()
                (self.folder / name).write_text(text.replace(old, new))
                line = text.split("\n").index(old) + 1
                self.assertIn(f"\n{self.folder}/{head.format(line)}", answer(str(self.folder))[1])


    def test_an_explanation_that_has_its_place(self) -> None:
        """An explanation may begin with the file and the line, or leave it to the program's path."""
        case = read_cases(self.cases)[1]
        system, stimuli = str(case.system), str(case.stimuli)
        line = (self.folder / "lamp.toml").read_text().split("\n").index('to = "on"') + 1
        for first, place in ((f"{system}:7: isn't there", f"{system}:7"), ("isn't there", f"{system}:{line}")):
            note = f"qp: {system}: 7 chart.1.state.1.row.1.to"
            with self.subTest(first), unittest.mock.patch("qptools.cases.outcome.explanation", return_value=[first, "more"]):
                told = no_run(case, ["run", "--", system, stimuli], Answer(b"", f"{note}\n", 2))
            self.assertEqual(told, NoRun(place, "isn't there", [note, "more"]))


class Names(InFolder):
    """Cases by their names, and words that are none."""

    @unittest.skipUnless(is_built(), "the program isn't built")
    def test_one_case(self) -> None:
        status, printed, _ = answer("--case", "on", str(self.folder))
        self.assertEqual((status, printed.splitlines()[-1]), (0, "5 passed, 0 failed"))
        self.assertEqual(answer(str(self.folder), "--case=on", "--case", "off")[1].splitlines()[-1], "8 passed, 2 failed")

    @unittest.skipUnless(is_built(), "the program isn't built")
    def test_a_name_that_no_case_has(self) -> None:
        self.assertEqual(answer("--case", "of", str(self.folder)), (2, "", "qptest: no case is called 'of'; did you mean 'off'?\n"))
        self.assertEqual(answer("--case", "zebra", str(self.folder))[2], "qptest: no case is called 'zebra'\n")

    def test_words(self) -> None:
        """Each refusal names the word."""
        table = {
            ("--case",): "argument --case: expected one argument", ("--junit=a.xml",): "the following arguments are required: FOLDER",
            ("a", "--watches"): "unrecognized arguments: --watches", ("cover", "a"): "the following arguments are required: JOURNAL",
            ("orders", "a"): "the following arguments are required: STIMULI", ("a", "--cov"): "unrecognized arguments: --cov",
            ("orders", "a", "b", "--keep"): "argument --keep: expected one argument",
        }
        for words, said in table.items():
            with self.subTest(words), self.assertRaises(BadWords) as raised:
                read_words(list(words))
            self.assertEqual(str(raised.exception), said)
        self.assertEqual(read_words(["--cover", "a", "--case", "x", "b"])[1].folders, ["a", "b"])
        self.assertEqual([read_words(["orders", "--kernel", kernel, "a", "b"])[1].most for kernel in ("qv", "qk")], [1000, 100])

    def test_help_has_each_option(self) -> None:
        for command in ("", *COMMANDS):
            words = [command] if command else []
            with self.subTest(command):
                self.assertEqual(answer(*words, "--help"), (0, f"{USAGE}\n", ""))
        for option in ("--case NAME", "--junit FILE", "--watch ", "--cover, --low", "--kernel sim|qv|qk|port|wait", "--most N",
                       "--ends 0|3|4", "--keep FOLDER"):
            self.assertIn(f"         {option}", USAGE)


class Junit(InFolder):
    """The JUnit file."""

    def tried(self, name: str, *failures: Failure, has_run: bool = True) -> Tried:
        case = next(case for case in read_cases(self.cases) if case.name == "on")
        return Tried(case, name, list(failures), unittest.mock.Mock() if has_run else None, 0.25)

    def test_counts(self) -> None:
        data = junit_of([self.tried("sim"), self.tried("qv", Failure("c:1", "a < b & c", [])),
                         self.tried("qk", Failure("c:2", "lost", []), has_run=False)])
        root = junit_root(self, data)
        self.assertEqual(root.attrib, {"tests": "3", "failures": "1", "errors": "1", "skipped": "0", "time": "0.750"})
        self.assertEqual([suite.get("name") for suite in root], [str(self.cases)])
        self.assertEqual([[told.tag for told in test] for test in root[0]], [[], ["failure"], ["error"]])
        failure = root[0][1][0]
        self.assertEqual((failure.get("message"), failure.text), ("a < b & c", "c:1: on, qv: a < b & c\n"))

    def test_files_that_cant_be_run(self) -> None:
        self.cases.write_text('[[case]]\nname = "a"\ncolour = 1\n')
        file = self.folder / "junit.xml"
        with unittest.mock.patch("qptools.cases.command.is_built", return_value=True):
            status, printed, noted = answer("--junit", str(file), str(self.folder))
        self.assertEqual((status, printed), (2, ""))
        root = junit_root(self, file.read_bytes())
        self.assertEqual((root.get("errors"), f"{root[0][0][0].get('message')}\n"), ("1", noted))

    def test_letters_that_xml_cant_have(self) -> None:
        root = junit_root(self, junit_of([self.tried("sim", Failure("c:1", "a\0b\x1b\ufffec\U0001f600", []))]))
        self.assertEqual(root[0][0][0].get("message"), "a\ufffdb\ufffd\ufffdc\U0001f600")

    @unittest.skipUnless(shutil.which("xmllint"), "no xmllint")
    def test_the_schema_refuses(self) -> None:
        """A file without one of its parts isn't of the form."""
        data = junit_of([self.tried("sim", Failure("c:1", "a", []))])
        for part in (b' classname="', b' tests="1"', b' type="failure"'):
            with self.subTest(part), self.assertRaises(AssertionError):
                junit_root(self, data.replace(part, part.replace(b"=", b"s="), 1))

    @unittest.skipUnless(is_built(), "the program isn't built")
    def test_a_file_that_cant_be_written(self) -> None:
        status, _, noted = answer("--junit", str(self.folder), "--case", "on", str(self.folder))
        self.assertEqual((status, noted), (7, f"qptest: {self.folder}: can't be written: Is a directory\n"))
        status, _, noted = answer("--junit", str(self.folder / "lost" / "junit.xml"), str(self.folder))
        self.assertEqual((status, noted), (2, f"qptest: {self.folder}/lost/junit.xml: there is no folder {self.folder}/lost\n"))


class Watch(InFolder):
    """Runs that are made again when a file changes."""

    def test_changes(self) -> None:
        """What is changed, made or removed between two looks makes it run again, once the files stand still."""
        more = self.folder / "more.txt"
        at_looks: dict[int, Callable[[], object]] = {
            2: lambda: self.cases.write_text("# changed\n"), 3: lambda: self.cases.write_text("# and once more\n"),
            7: lambda: more.write_text("made"), 11: more.unlink,
        }
        said, looks = list[str](), list[float]()

        def sleep(seconds: float) -> None:
            looks.append(seconds)
            at_looks.get(len(looks), lambda: None)()
            if len(looks) == 16:
                raise KeyboardInterrupt

        with unittest.mock.patch("time.sleep", sleep), self.assertRaises(KeyboardInterrupt):
            watch.watch(lambda: said.append("ran"), lambda: [self.cases, more], said.append)
        watching = "watching 2 files; Ctrl-C ends it"
        self.assertEqual(said, ["ran", watching, f"changed: {self.cases}", "ran", watching, f"changed: {more}", "ran", watching, f"changed: {more}",
                                "ran", watching])
        self.assertGreaterEqual(min(looks), watch.SECONDS)

    def test_what_changes_while_it_runs(self) -> None:
        """Makes it run again too."""
        runs = []

        def run() -> None:
            runs.append(self.cases.write_text(f"# run {len(runs)} {'x' * len(runs)}\n"))
            if len(runs) == 3:
                raise KeyboardInterrupt

        with unittest.mock.patch("time.sleep"), self.assertRaises(KeyboardInterrupt):
            watch.watch(run, lambda: [self.cases], lambda line: None)

    @unittest.skipUnless(is_built(), "the program isn't built")
    def test_the_program(self) -> None:
        """Runs once, then behind a change of the system, and rests in between; an interrupt ends it."""
        words = [TOP / "tools" / "qptest", "--watch", "--case", "on", self.folder]
        with subprocess.Popen(words, stdout=subprocess.PIPE, text=True, preexec_fn=hear_interrupts) as process:
            try:
                self.assertEqual(self.lines_to(process, "watching")[-2], "5 passed, 0 failed")
                begun = self.processor_time(process.pid)
                time.sleep(1.5)
                self.assertLess(self.processor_time(process.pid) - begun, 0.3, "it doesn't rest")
                text = (self.folder / "lamp.toml").read_text()
                (self.folder / "lamp.toml").write_text(text.replace('to = "on"', ""))
                told = self.lines_to(process, "watching")
                self.assertEqual((told[0], told[-2]), (f"changed: {self.folder}/lamp.toml", "4 passed, 1 failed"))
                process.send_signal(signal.SIGINT)
                self.assertEqual(process.wait(60), 130)
            finally:
                process.kill()

    def lines_to(self, process: "subprocess.Popen[str]", word: str) -> list[str]:
        """The lines up to one that begins with a word."""
        assert process.stdout
        lines = []
        for line in process.stdout:
            lines.append(line.rstrip("\n"))
            if line.startswith(word):
                break
        return lines

    def processor_time(self, process: int) -> float:
        """The seconds that a process has had of processors; 0 where the system doesn't tell."""
        stat = Path(f"/proc/{process}/stat")
        ticks = stat.read_text().rpartition(")")[2].split()[11:13] if stat.exists() else []
        return sum(map(int, ticks)) / 100
