"""The files for a CI that docs/TESTING.md shows: what they do, with tools of the test's own and with the real ones."""

import importlib
import os
import re
import shutil
import subprocess
import tempfile
import unittest
from pathlib import Path
from typing import Any

from qptools.program import TOP, is_built

try:
    yaml: Any = importlib.import_module("yaml")
except ModuleNotFoundError:
    yaml = None

PAGE = (TOP / "docs" / "TESTING.md").read_text().partition("\n## 7 In a CI\n")[2]


def block(kind: str) -> str:
    """The page's block of a kind."""
    found = re.search(rf"^```{kind}\n(.*?)^```$", PAGE, re.M | re.S)
    assert found
    return found[1]


class InProject(unittest.TestCase):
    """A team's folder with the lamp."""

    def setUp(self) -> None:
        folder = tempfile.TemporaryDirectory()
        self.addCleanup(folder.cleanup)
        self.project = Path(folder.name, "project")
        charts = self.project / "charts"
        charts.mkdir(parents=True)
        for name in ("lamp.toml", "go.txt", "cases.toml"):
            shutil.copy(TOP / "examples" / name, charts)
        self.stand_in = Path(folder.name, "fongeruti")
        self.told = self.stand_in / "told"

    def stand_ins(self, **statuses: int) -> Path:
        """A checkout whose tools write down how they are called, and end with these statuses."""
        (self.stand_in / "tools").mkdir(parents=True, exist_ok=True)
        self.told.unlink(missing_ok=True)
        for tool in ("qplint", "qptest"):
            file = self.stand_in / "tools" / tool
            cases = "".join(f"*\"{word}\"*) exit {status} ;; " for word, status in statuses.items())
            file.write_text(f"#!/bin/sh\necho {tool} \"$@\" >>'{self.told}'\ncase \"{tool} $*\" in {cases}esac\n")
            file.chmod(0o755)
        return self.stand_in

    def run_script(self, checkout: Path) -> "subprocess.CompletedProcess[str]":
        (self.project / "ci.sh").write_text(block("sh"))
        return self.run_words(["sh", "ci.sh"], checkout)

    def run_words(self, words: list[str], checkout: Path) -> "subprocess.CompletedProcess[str]":
        environment = os.environ | {"QP": str(checkout), "RUNNER_TEMP": str(self.project)}
        return subprocess.run(words, cwd=self.project, env=environment, capture_output=True, text=True)


class Script(InProject):
    """The script for any CI."""

    calls = ["qplint charts/lamp.toml", "qptest --junit junit.xml charts", "qptest orders --ends 0 --keep ends/go charts/lamp.toml charts/go.txt"]

    def test_calls(self) -> None:
        """Each tool is called, whatever the ones before ended with, and one that fails fails the whole."""
        for statuses, status in (({}, 0), ({"qplint": 1}, 1), ({"junit": 1}, 1), ({"orders": 1}, 1), ({"qplint": 1, "orders": 2}, 1)):
            with self.subTest(statuses):
                self.assertEqual(self.run_script(self.stand_ins(**statuses)).returncode, status)
                self.assertEqual(self.told.read_text().splitlines(), self.calls)

    def test_without_a_checkout(self) -> None:
        (self.project / "ci.sh").write_text(block("sh"))
        environment = {name: value for name, value in os.environ.items() if name != "QP"}
        ran = subprocess.run(["sh", "ci.sh"], cwd=self.project, env=environment, capture_output=True, text=True)
        self.assertNotEqual(ran.returncode, 0)
        self.assertIn("names a checkout of Fongeruti in which the program is built", ran.stderr)

    @unittest.skipUnless(is_built(), "the program isn't built")
    def test_the_tools(self) -> None:
        ran = self.run_script(TOP)
        self.assertEqual((ran.returncode, ran.stderr), (0, ""), ran.stdout)
        self.assertIn("5 passed, 0 failed\n", ran.stdout)
        self.assertTrue(ran.stdout.endswith("pass  all 2 runs end with 0\n"), ran.stdout)
        self.assertIn('tests="5" failures="0" errors="0"', (self.project / "junit.xml").read_text())
        self.assertEqual(sorted(file.name for file in (self.project / "ends" / "go").iterdir()), ["outcome-1-stimuli.txt", "outcome-1.txt"])


@unittest.skipUnless(yaml and shutil.which("bash"), "no yaml (Debian's python3-yaml), or no bash")
class Workflow(InProject):
    """The workflow of GitHub, whose steps run in bash."""

    def steps(self) -> dict[str, str]:
        """What each step runs, by its name."""
        return {step["name"]: step["run"] for step in yaml.safe_load(block("yaml"))["jobs"]["charts"]["steps"] if "run" in step}

    def run_step(self, text: str, checkout: Path) -> int:
        return self.run_words(["bash", "-e", "-c", text], checkout).returncode

    def test_calls(self) -> None:
        """The steps make the calls of the script, and each fails where its own does."""
        for word, failing in (("", ""), ("qplint", "Lint"), ("junit", "Tests"), ("orders", "Orders")):
            checkout = self.stand_ins(**({word: 1} if word else {}))
            for name, text in self.steps().items():
                with self.subTest(name, failing=failing):
                    self.assertEqual(self.run_step(text, checkout), int(name == failing))
            self.assertEqual(self.told.read_text().splitlines(), Script.calls)

    def test_what_it_keeps(self) -> None:
        job = yaml.safe_load(block("yaml"))["jobs"]["charts"]
        self.assertEqual(job["steps"][-1]["with"]["path"].split(), ["junit.xml", "ends"])
        self.assertEqual(job["env"], {"QP": "${{ vars.FONGERUTI }}"})
        self.assertEqual([step.get("if") for step in job["steps"][3:]], ["${{ !cancelled() }}"] * 3, "behind a step that failed the others run too")

    def test_lines_that_are_shown(self) -> None:
        """The pattern finds the place in what the tools tell."""
        self.assertEqual(self.run_step(self.steps()["Show what fails beside its line"], self.stand_in), 0)
        matcher = yaml.safe_load((self.project / "qp.json").read_text())["problemMatcher"][0]["pattern"][0]
        found = re.search(matcher["regexp"], "charts/cases.toml:12: rings, sim: clock took 16 events, expected 17")
        self.assertEqual(found and [found[matcher[part]] for part in ("file", "line", "message")],
                         ["charts/cases.toml", "12", "rings, sim: clock took 16 events, expected 17"])
        for other in ("pass  charts: switched on, sim", "      qp: charts/lamp.toml: 8 chart.1.init", "outcome 1, of 2 runs, ends with 0:"):
            self.assertIsNone(re.search(matcher["regexp"], other), other)
