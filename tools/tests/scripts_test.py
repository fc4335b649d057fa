"""All scripts answer --help at once, whether the program is built or not, and none of them builds it."""

import ast
import os
import shutil
import subprocess
import sys
import tempfile
import unittest
from pathlib import Path

from qptools.program import TOP

#: Scripts of this repository that a user calls; those that need the built program.
SCRIPTS = ("examples/test", "view/test", "view/qpview", "view/browser/check", "tools/test", "tools/qptest", "tools/qpexplain", "tools/libraries",
           "tools/schema", "tools/sources", "tools/program", "tools/release", "tools/index", "tools/qplint", "bench/gate", "bench/verdicts",
           "bench/edits/try", "recorder/test",
           "board/test", "board/qpc", "board/desk", "board/cortex-m3/build", "board/cortex-m3/run")
OF_THE_PROGRAM = ("bench/check", "bench/documents", "bench/edges", "bench/hostile", "bench/journals", "bench/memory", "bench/mutants",
                  "bench/readers", "bench/replay", "bench/runs", "bench/sim", "bench/steps", "bench/sum", "bench/threads", "examples/test")
SECONDS = 20


class Scripts(unittest.TestCase):
    """Help, and what is said where the program isn't built."""

    def test_help(self) -> None:
        for script in (*SCRIPTS, *OF_THE_PROGRAM):
            with self.subTest(script):
                ran = subprocess.run([TOP / script, "--help"], capture_output=True, text=True, timeout=SECONDS)
                self.assertEqual((ran.returncode, ran.stderr), (0, ""))
                self.assertRegex(ran.stdout, r"(?i)usage|`")
                self.assertLess(len(ran.stdout.splitlines()), 40)
                if script.startswith("bench/") or script == "examples/test":
                    words = " ".join(ran.stdout.split())
                    self.assertRegex(words, r"\btakes? .*\b(second|minute|hour)s?\b", "how long it takes")
                    self.assertRegex(words, r"\bneeds?\b|must be built", "what it needs")

    def test_no_script_builds(self) -> None:
        for script in OF_THE_PROGRAM:
            with self.subTest(script):
                self.assertNotIn('qp" build', (TOP / script).read_text())

    def test_without_the_program(self) -> None:
        """A copy without the program: each script ends at once and says what is missing."""
        with tempfile.TemporaryDirectory() as folder:
            for part in ("bench", "examples", "tools", "view"):
                Path(folder, part).symlink_to(TOP / part)
            Path(folder, "crates").mkdir()
            for script in OF_THE_PROGRAM:
                with self.subTest(script):
                    ran = subprocess.run([Path(folder, script)], capture_output=True, text=True, timeout=SECONDS, env=os.environ)
                    self.assertEqual((ran.returncode, ran.stderr), (125, "the program isn't built: ./qp build\n"))

    def test_tests_without_the_program(self) -> None:
        """The same of those tests that are made without it as far as they can be; they find it beside their own files."""
        with tempfile.TemporaryDirectory() as folder:
            for part in ("tools", "view", "recorder", "examples"):
                shutil.copytree(TOP / part, Path(folder, part))
            for words in (["tools/test", "--program"], *([["recorder/test"]] if shutil.which("gcc") or shutil.which("clang") else [])):
                with self.subTest(words[0]):
                    ran = subprocess.run([Path(folder, words[0]), *words[1:]], capture_output=True, text=True, timeout=SECONDS)
                    self.assertEqual((ran.returncode, ran.stderr.splitlines()[-1]), (125, "the program isn't built: ./qp build"))


class LineEnds(unittest.TestCase):
    """Stimuli and journals with Windows line ends are refused, so a checkout has none."""

    @unittest.skipUnless(shutil.which("git") and (TOP / ".git").exists(), "this is no checkout")
    def test_a_checkout_has_line_feeds_alone(self) -> None:
        files = ["qp", "examples/lamp.toml", "examples/go.txt", "examples/philosophers/two-ticks.txt", "tools/slips.txt"]
        ran = subprocess.run(["git", "check-attr", "eol", "--", *files], cwd=TOP, capture_output=True, text=True, check=True)
        self.assertEqual(ran.stdout.splitlines(), [f"{file}: eol: lf" for file in files])


class Hints(unittest.TestCase):
    """The Python parts have type hints, and use nothing beyond Python's library."""

    parts: dict[str, ast.Module]

    @classmethod
    def setUpClass(cls) -> None:
        cls.parts = python_parts()

    def test_each_function_says_what_it_takes_and_answers(self) -> None:
        without = [f"{name}: {part.name}" for name, tree in self.parts.items() for part in ast.walk(tree)
                   if isinstance(part, ast.FunctionDef) and not has_hints(part)]
        self.assertEqual(without, [])

    def test_nothing_but_the_library(self) -> None:
        own = {Path(name).stem for name in self.parts} | {Path(name).parent.name for name in self.parts}
        used = {module.split(".")[0] for tree in self.parts.values() for part in ast.walk(tree) for module in modules(part)}
        self.assertEqual(used - own - sys.stdlib_module_names, set())


def python_parts() -> dict[str, ast.Module]:
    """Each file in Python, by its path."""
    found = {}
    for folder in ("bench", "board", "examples", "recorder", "tools", "view"):
        for path in sorted((TOP / folder).rglob("*")):
            if path.is_file() and (path.suffix == ".py" or not path.suffix and path.read_bytes().startswith(b"#!/usr/bin/env python3")):
                found[str(path.relative_to(TOP))] = ast.parse(path.read_text())
    return found


def has_hints(function: ast.FunctionDef) -> bool:
    """Whether each parameter but `self` and `cls` has its type, and the answer too."""
    given = function.args
    taken = [*given.posonlyargs, *given.args, *given.kwonlyargs, *filter(None, (given.vararg, given.kwarg))]
    is_told = function.returns is not None or function.name == "__init__"
    return is_told and all(it.annotation or it.arg in ("self", "cls") for it in taken)


def modules(part: ast.AST) -> list[str]:
    """The modules that an import names, but for those beside its own file."""
    if isinstance(part, ast.Import):
        return [it.name for it in part.names]
    return [part.module] if isinstance(part, ast.ImportFrom) and part.module and not part.level else []
