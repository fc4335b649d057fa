"""The launcher over programs of the test's own: which one answers and of what sources, and that its lines and status stay as they are."""

import hashlib
import os
import shutil
import subprocess
import tempfile
import time
import unittest
from pathlib import Path

from qptools.program import TOP

#: Files whose clocks are as coarse as can be are taken for unchanged only when they are older than this.
SETTLED = 2.1


class Folder(unittest.TestCase):
    """A folder with the launcher, the tools, one source, and programs that the tests write."""

    def setUp(self) -> None:
        folder = tempfile.TemporaryDirectory()
        self.addCleanup(folder.cleanup)
        self.top = Path(folder.name).resolve()
        shutil.copy(TOP / "qp", self.top)
        for name in ("tools", "view", "release"):
            (self.top / name).mkdir()
        for part in ("tools/qptools", "view/qpviewer"):
            (self.top / part).symlink_to(TOP / part)
        for script in ("sources", "program", "release", "script.sh", "help.txt", "words.awk", "qpexplain", "qptest"):
            shutil.copy(TOP / "tools" / script, self.top / "tools" / script)
        (self.top / "crates.txt").write_text("qp_cli:\n")
        self.program = self.top / "crates/qp_cli/out/qp_cli"
        self.program.parent.mkdir(parents=True)
        self.source = self.top / "crates/qp_cli/README.md"
        self.source.write_text("one\n")
        self.release = self.top / "release/qp-x86_64-linux"

    def script(self, path: Path, text: str) -> None:
        path.write_text(f"#!/bin/sh\n{text}\n")
        path.chmod(0o755)

    def build(self, says: str = "", status: int = 0, output: str = "output") -> None:
        self.script(self.program, f"[ $# != 0 ] || exit 1\nprintf '%s' '{says}' >&2\necho {output}\nexit {status}")

    def mark(self) -> None:
        subprocess.run([self.top / "tools/sources", "--mark"], check=True)

    def id_now(self) -> str:
        return subprocess.run([self.top / "tools/sources"], capture_output=True, text=True, check=True).stdout.strip()

    def ship(self, output: str = "shipped", sources: str = "") -> None:
        """A release, as tools/release makes it."""
        self.script(self.release, f"[ $# != 0 ] || exit 1\necho {output}")
        has = {"sources": sources or self.id_now(), "commit": "abc of 2026", "kit": "kit 1", "machine": "x86-64 Linux",
               "sha256": hashlib.sha256(self.release.read_bytes()).hexdigest()}
        (self.top / "release/RELEASE").write_text("".join(f"{key} {value}\n" for key, value in has.items()))

    def call(self, *words: str) -> tuple[int, str, str]:
        path = f"{self.top}:{os.environ['PATH']}"
        ran = subprocess.run([self.top / "qp", *words], capture_output=True, text=True, cwd=self.top, env=os.environ | {"PATH": path})
        return ran.returncode, ran.stdout, ran.stderr

    def program_line(self) -> str:
        return self.call("--version")[1].splitlines()[2]


class Choice(Folder):
    """Which program answers, and what `--version` says of it."""

    def test_the_one_that_was_built_here_comes_first(self) -> None:
        self.build()
        self.mark()
        self.ship()
        self.assertRegex(self.program_line(), r"^program: proved, and built here of these sources, [0-9a-f]{12} \(commit ")
        self.assertEqual(self.call("run", "a", "b"), (0, "output\n", ""))

    def test_then_the_release_of_these_sources(self) -> None:
        self.ship()
        self.assertEqual(self.program_line(), f"program: proved, the release of these sources, {self.id_now()} (commit abc of 2026), built by kit 1")
        self.assertEqual(self.call("run", "a", "b"), (0, "shipped\n", ""))

    def test_a_program_of_other_sources_doesnt_answer(self) -> None:
        self.build()
        self.mark()
        built = self.id_now()
        self.source.write_text("two\n")
        self.ship()
        self.assertEqual(self.call("run", "a", "b"), (0, "shipped\n", ""))
        self.assertIn(f"; that in crates/qp_cli/out/qp_cli was built of the sources {built}", self.program_line())

    def test_nor_does_one_that_nobody_marked(self) -> None:
        self.ship()
        self.build()
        self.assertEqual(self.call("run", "a", "b"), (0, "shipped\n", ""))
        self.mark()
        self.build(output="another")
        self.assertEqual(self.call("run", "a", "b"), (0, "shipped\n", ""))
        self.assertIn("; that in crates/qp_cli/out/qp_cli was built of unknown sources", self.program_line())

    def test_then_the_release_of_other_sources(self) -> None:
        self.ship(sources="0123456789ab")
        status, output, note = self.call("run", "a", "b")
        self.assertEqual((status, output), (0, "shipped\n"))
        line = "qp: the release answers, of the sources 0123456789ab (commit abc of 2026); those here are"
        self.assertEqual(note, f"{line} {self.id_now()}, and `qp build` builds their program\n")
        self.assertIn("program: proved, the release of the sources 0123456789ab (commit abc of 2026)", self.program_line())

    def test_an_altered_release_is_refused(self) -> None:
        self.ship()
        with self.release.open("a") as file:
            file.write("echo more\n")
        said = "release/qp-x86_64-linux was altered: its SHA-256 isn't the one that release/RELEASE has; `git checkout release` brings it back"
        for words in (("run", "a", "b"), ("walk",), ("gen", "1")):
            self.assertEqual(self.call(*words), (125, "", f"qp: {said}\n"))
        self.assertEqual(self.call("--version")[0], 125)
        self.assertEqual(self.program_line(), f"program: refused: {said}")

    def test_a_release_for_another_machine(self) -> None:
        self.ship()
        self.release.write_text("#!/nowhere/sh\n")
        named = self.top / "release/RELEASE"
        named.write_text(named.read_text().partition("sha256")[0] + f"sha256 {hashlib.sha256(self.release.read_bytes()).hexdigest()}\n")
        self.assertIn("none that is proved, so calls run in the interpreter; the release is for x86-64 Linux", self.program_line())
        self.release.chmod(0o644)
        self.assertIn("may not be executed here: chmod +x release/qp-x86_64-linux", self.program_line())

    def test_the_tools_take_the_same(self) -> None:
        self.assertEqual(self.program_line(), "program: none that is proved, so calls run in the interpreter")
        self.ship()
        ran = subprocess.run([self.top / "tools/program"], capture_output=True, text=True)
        self.assertEqual((ran.returncode, ran.stdout.splitlines()[0], ran.stderr), (0, str(self.release), ""))


class Sources(Folder):
    """The id of the sources, which is kept until one of them changes."""

    def test_it_is_that_of_names_and_contents(self) -> None:
        before = self.id_now()
        self.build()
        self.assertEqual(self.id_now(), before, "what is built is no source")
        self.source.rename(self.top / "crates/qp_cli/NOTES.md")
        self.assertNotEqual(self.id_now(), before)

    def test_what_was_just_written_isnt_kept(self) -> None:
        self.id_now()
        self.assertFalse((self.program.parent / "sources-seen").exists())

    def test_a_changed_source_is_never_taken_for_the_same(self) -> None:
        """Each kind of change that keeps what it can: the size, the time of the last write, the file itself."""
        other = self.top / "crates/qp_cli/other"
        other.write_text("1234\n")

        def write_in_place() -> None:
            times = self.source.stat()
            with self.source.open("r+") as file:
                file.write("two")
            os.utime(self.source, ns=(times.st_atime_ns, times.st_mtime_ns))

        def swap() -> None:
            self.source.rename(self.top / "kept")
            other.rename(self.source)
            (self.top / "kept").rename(other)

        def replace() -> None:
            shutil.copy2(self.source, self.top / "new")
            (self.top / "new").write_text("six\n")
            shutil.copystat(self.source, self.top / "new")
            (self.top / "new").rename(self.source)

        seen = {self.id_now()}
        for count, change in enumerate((write_in_place, swap, replace, other.unlink, lambda: other.touch()), 2):
            with self.subTest(count):
                time.sleep(SETTLED)
                self.assertIn(self.id_now(), seen)
                self.assertTrue((self.program.parent / "sources-seen").exists())
                change()
                seen.add(self.id_now())
                self.assertEqual(len(seen), count)

    def test_the_kept_id_is_read_no_more_once_the_script_changed(self) -> None:
        time.sleep(SETTLED)
        before = self.id_now()
        kept = self.program.parent / "sources-seen"
        kept.write_text(kept.read_text().replace(before, "0" * 12))
        self.assertEqual(self.id_now(), "0" * 12, "the kept id answers")
        (self.top / "tools/sources").touch()
        self.assertEqual(self.id_now(), before)


class Release(Folder):
    """How a release is made of a gate's program, and compared with that of another gate."""

    def setUp(self) -> None:
        super().setUp()
        self.script(self.top / "rt", "echo kit 2")

    def released(self, *words: str) -> tuple[int, str]:
        env = os.environ | {"PATH": f"{self.top}:{os.environ['PATH']}"}
        ran = subprocess.run([self.top / "tools/release", *words], capture_output=True, text=True, env=env)
        return ran.returncode, ran.stdout + ran.stderr

    def test_it_is_made_of_a_gates_program(self) -> None:
        self.assertEqual(self.released()[0], 125)
        self.build()
        self.mark()
        status, said = self.released()
        self.assertEqual((status, "isn't a gate's" in said), (125, True))
        shutil.copy(self.program, f"{self.program}.by-rattle")
        self.assertEqual(self.released()[0], 0)
        self.assertEqual(self.release.read_bytes(), self.program.read_bytes())
        self.program.unlink()
        self.assertIn(f"the release of these sources, {self.id_now()} (commit ", self.program_line())
        self.assertIn("built by kit 2", self.program_line())
        self.assertEqual(self.call("run", "a", "b"), (0, "output\n", ""))

    def test_it_isnt_made_of_other_sources(self) -> None:
        self.build()
        self.mark()
        self.source.write_text("two\n")
        self.assertEqual(self.released()[0], 125)
        self.mark()
        self.build(output="another")
        self.assertEqual(self.released()[0], 125)

    def test_a_gate_compares_it(self) -> None:
        self.build()
        self.mark()
        self.assertEqual(self.released("--check"), (0, "there is no release to compare with\n"))
        shutil.copy(self.program, f"{self.program}.by-rattle")
        self.released()
        self.assertEqual(self.released("--check"), (0, "the release is the program that was built here, byte for byte\n"))
        self.build(output="another")
        self.mark()
        status, said = self.released("--check")
        self.assertEqual((status, said), (1, "tools/release: the release of these sources, by kit 2, isn't the program that kit 2 built of them\n"))
        self.source.write_text("two\n")
        self.mark()
        status, said = self.released("--check")
        self.assertEqual((status, said.endswith(": nothing to compare\n")), (0, True))
        self.release.write_text("altered")
        self.assertEqual(self.released("--check")[0], 1)


class Calls(Folder):
    """What comes of a call."""

    def test_lines_and_status_are_the_programs(self) -> None:
        for says, status in (("", 0), ("qp: spent in lane 0\n", 4), ("qp: memory\n", 5), ("no line", 6), ("qp: write fault\n", 7)):
            with self.subTest(says, status=status):
                self.build(says, status)
                self.mark()
                self.assertEqual(self.call("run", "lamp.toml", "go.txt"), (status, "output\n", says))
                self.assertEqual(self.call("walk"), (status, "output\n", says))

    def test_an_unproved_run(self) -> None:
        """A run in the interpreter, which a script stands for here: its words are explained too."""
        self.script(self.top / "rt", "echo 'qp: bad words' >&2\necho 'run=ended status=1 steps=1' >&2\nexit 1")
        status, output, note = self.call("run", "a lamp.toml")
        self.assertEqual((status, output), (1, ""))
        missing = "    STIMULI is missing: qp run SYSTEM STIMULI"
        self.assertEqual(note.splitlines()[1:], [missing, "qp: bad words", missing], "before the minutes that it takes, and behind them")
        for right in (("gen", "1"), ("run", "lamp.toml", "go.txt"), ("check", "a", "b", "c")):
            self.assertEqual(self.call(*right)[2].splitlines()[1:2], ["qp: bad words"], right)

    def test_an_unproved_run_says_that_it_goes_on(self) -> None:
        """Its clock is a script here, ten seconds of which pass in a moment."""
        self.script(self.top / "rt", "while ! [ -e ticked ]; do /bin/sleep 0.01; done\necho 'run=ended status=0 steps=1' >&2")
        ticked = self.top / "crates/qp_cli/ticked"
        # one that outlives the run writes nothing into the folder, which is taken away then
        self.script(self.top / "sleep", f"[ ! -e {ticked} ] || exec /bin/sleep 1\n/bin/sleep 0.05\n"
                                        f"if [ -e {self.top}/twice ]; then : >{ticked}; else : >{self.top}/twice; fi")
        began = time.monotonic()
        status, _, note = self.call("run", "lamp.toml", "go.txt")
        self.assertEqual((status, note.splitlines()[1]), (0, "qp: 10 seconds in the interpreter"))
        self.assertLess(time.monotonic() - began, 5)

    def test_bad_words(self) -> None:
        self.build("qp: bad words\n", 1)
        self.mark()
        self.assertEqual(self.call("walk"), (1, "output\n", "qp: bad words\n    no command is called 'walk'; `qp help` has them\n"))
        for right in (("--budget", "1"), ("--kernel", "qk"), ("--kernel=port", "--form", "1"), ("--kernel=qv", "--form=2"),
                      ("--kernel=wait",)):
            with self.subTest(right):
                self.assertEqual(self.call("run", *right, "lamp.toml", "go.txt"), (1, "output\n", "qp: bad words\n"))
        self.assertIn("--kernel is sim, qv, qk, port or wait", self.call("run", "--kernel", "rtos", "lamp.toml", "go.txt")[2])

    def test_words_in_front_of_tools(self) -> None:
        self.script(self.top / "tools/qptest", 'echo "test: $*"')
        for path in ("view/qpview", "view/qpplace", "recorder/qp_journal"):
            (self.top / path).parent.mkdir(exist_ok=True)
            self.script(self.top / path, f'echo "{path}: $*"; exit 7')
        self.assertEqual(self.call("test", "--cover", "a b"), (0, "test: --cover a b\n", ""))
        self.assertEqual(self.call("orders", "a", "b"), (0, "test: orders a b\n", ""))
        self.assertEqual(self.call("view", "--text", "a"), (7, "view/qpview: --text a\n", ""))
        self.assertEqual(self.call("place"), (7, "view/qpplace: \n", ""))
        self.assertEqual(self.call("record", "--help"), (7, "recorder/qp_journal: --help\n", ""))
