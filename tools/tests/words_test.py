"""The words of the help's page are those of the program, of the launcher and of the tools; both readers of the page say the same of a call."""

import re
import subprocess
import unittest

from qptools.cases.case_file import KERNELS
from qptools.explain.table import commands, other_words
from qptools.explain.words import explain_words
from qptools.program import TOP, call, is_built

SOURCES = TOP / "crates" / "qp_commands" / "src"
BAD_WORDS = 1

#: Calls, and whether they are some of the program's.
CALLS = (
    ("run a b", True), ("run", False), ("run a", False), ("run a b c", False), ("walk a b", False), ("view a b c", False), ("help", False),
    ("run --kernel qv a b", True), ("run --kernel=qv a b", True), ("run a --kernel qv b", True), ("run a b --kernel", False),
    ("run --kernel rtos a b", False), ("run --kernel qk --kernel qk a b", False), ("run --kernel qv --form 1 a b", False),
    ("run --kernel=qv --form=2 a b", True), ("run --kernel sim|qv a b", False), ("run --kernel= a b", False), ("run -k qv a b", False),
    ("run --budget 1 a b", True), ("run --budget 1000000 a b", True), ("run --budget 1000001 a b", False), ("run --budget 0 a b", False),
    ("run --budget 01 a b", False), ("run --budget 1e3 a b", False), ("run --budget 99999999999 a b", False), ("run --form 3 a b", False),
    ("run --out summary a b", True), ("run --from frames a b", False), ("run -- --kernel b", True), ("run -- a b c", False), ("run - b", True),
    ("check a b c", True), ("check --form 1 a b c", False), ("replay a b c", True), ("decode a", True), ("decode a b", False),
    ("migrate a", True), ("migrate --from frames --to 1 a", True), ("migrate --to=2 a", True), ("migrate --to 3 a", False),
    ("gen 1", True), ("gen 1000", True), ("gen 1001", False), ("gen 0", False), ("gen x", False), ("gen", False), ("gen a=1", False),
)


def of_sources(name: str, pattern: str) -> list[str]:
    return re.findall(pattern, (SOURCES / name).read_text())


class Words(unittest.TestCase):
    """The page beside the sources of the program's words."""

    def test_commands_and_options(self) -> None:
        self.assertEqual(sorted(commands()), sorted(of_sources("apps.rt", r'Word::\w+ => "(\w+)"')))
        options = [name for command in commands().values() for name in command.options]
        self.assertEqual(sorted(options), sorted(f"--{name}" for name in of_sources("apps.rt", r'Argument::Option\("(\w+)"\)')))
        # check and replay have their operands from one table of the sources
        operands = sum(len(command.files) for name, command in commands().items() if name != "replay")
        self.assertEqual(operands, len(of_sources("apps.rt", r"Argument::Operand\(\"")))

    def test_values(self) -> None:
        values = {word for command in commands().values() for value in command.options.values() for word in value.words}
        self.assertEqual(values, set(of_sources("values.rt", r'Some\("(\w+)"\) =>')))

    def test_kernels_of_the_tools(self) -> None:
        self.assertEqual(sorted(commands()["run"].options["--kernel"].words), sorted(KERNELS))

    def test_both_readers(self) -> None:
        for words, is_call in CALLS:
            with self.subTest(words):
                self.assertEqual(explain_words(words.split()) == "", is_call)
                awk = ["awk", "-f", TOP / "tools/words.awk", "--", *words.split()]
                self.assertEqual(subprocess.run(awk, env={"page": str(TOP / "tools/help.txt")}).returncode == 0, is_call)

    @unittest.skipUnless(is_built(), "no program answers")
    def test_the_program(self) -> None:
        for words, is_call in CALLS:
            with self.subTest(words):
                self.assertEqual(call(words.split()).status != BAD_WORDS, is_call)
        for name, command in commands().items():
            for option, value in command.options.items():
                for word in value.words:
                    with self.subTest(f"{name} {option} {word}"):
                        self.assertNotEqual(call([name, option, word, *command.files]).status, BAD_WORDS)

    def test_the_launcher_has_them(self) -> None:
        launcher = (TOP / "qp").read_text()
        for word in other_words():
            with self.subTest(word):
                self.assertRegex(launcher, rf"(?m)^    (?:\S+ \| )*{word}:")
        for tool in re.findall(r"tool (\S+/\S+) ", launcher):
            with self.subTest(tool):
                self.assertTrue((TOP / tool).is_file())


class Help(unittest.TestCase):
    """What the launcher prints of its page."""

    def said(self, *words: str) -> tuple[int, str, str]:
        ran = subprocess.run([TOP / "qp", *words], capture_output=True, text=True)
        return ran.returncode, ran.stdout, ran.stderr

    def test_pages(self) -> None:
        page = (TOP / "tools" / "help.txt").read_text()
        self.assertEqual(self.said("help"), (0, page, ""))
        self.assertEqual(self.said(), (1, "", page))
        self.assertLess(max(map(len, page.splitlines())), 140)

    def test_a_commands_part(self) -> None:
        for name in [*commands(), "view", "record", "build"]:
            with self.subTest(name):
                status, part, _ = self.said("help", name)
                self.assertEqual((status, part.split()[0]), (0, name))
                self.assertEqual(len(re.findall(r"(?m)^  [a-z]", part)), 1)
        self.assertEqual(self.said("run", "--help"), self.said("help", "run"))
        self.assertEqual(self.said("help", "qp")[0], 1)

    def test_tools_answer_their_own_help(self) -> None:
        for word, tool in (("view", "qpview"), ("place", "qpplace"), ("test", "qptest"), ("record", "qp_journal"), ("explain", "qp explain")):
            with self.subTest(word):
                status, page, _ = self.said(word, "--help")
                self.assertEqual(status, 0)
                self.assertIn(f"usage: {tool}", page)
