"""The JSON schema of a system's file: made of the page's table, tried on the examples, on slips, on the judge's systems and on texts."""

import importlib
import json
import random
import re
import subprocess
import tempfile
import tomllib
import unittest
from pathlib import Path
from typing import Any

from explain_test import clock_files, slips
from qptools import schema
from qptools.changes import change_all
from qptools.program import TOP, call, is_built
from qpviewer.system import KEYS
from tables_test import blocks, plain

try:
    jsonschema: Any = importlib.import_module("jsonschema")
except ModuleNotFoundError:
    jsonschema = None

EXAMPLES, JUDGED = TOP / "examples", TOP / "crates" / "qp_verdicts" / "data"
PAGE = schema.PAGE.read_text()
#: The codes that a schema finds, and those for which it would have to read names that stand elsewhere.
FOUND = {2, 3, 4, 5, 8, 14}
#: Faults with these codes that hang on another table or another member.
_ELSEWHERE = re.compile(r"5 (?:chart\.\d+\.timer\.\d+\.signal|object\.\d+\.threshold|pool\.\d+\.size|signal\.\d+\.static)|14 object\.\d+")


def systems() -> list[Path]:
    """The systems of the examples."""
    return [path for path in sorted(EXAMPLES.rglob("*.toml")) if path.name != "cases.toml"]


class Table(unittest.TestCase):
    """The page's table, and what is made of it."""

    def test_the_file_is_made_of_the_page(self) -> None:
        self.assertEqual(schema.FILE.read_text(), schema.schema_text(PAGE), "tools/schema --write")

    def test_the_keys_are_those_that_are_read(self) -> None:
        found: dict[str, set[str]] = {}
        for row in schema.rows(PAGE):
            found.setdefault(row.table, set()).add(row.key)
        self.assertEqual(found, KEYS)

    def test_rows(self) -> None:
        of = {(row.table, row.key): schema._kind(row) for row in schema.rows(PAGE)}
        self.assertEqual(of["object", "queue"], {"type": "integer", "minimum": 0, "maximum": 255})
        self.assertEqual(of["top", "chart"], {"type": "array", "minItems": 1, "maxItems": 32, "items": {"$ref": "#/definitions/chart"}})
        self.assertEqual(of["chart", "vars"]["maxProperties"], 16)

    def test_a_kind_that_isnt_known(self) -> None:
        for text, words in ((PAGE.replace("| boolean |", "| a colour |"), "`static` of signal is 'a colour', and no such kind is known"),
                            (PAGE.replace("| boolean |", "| boolean | x |"), "hasn't five cells"), ("", "has no table of keys")):
            with self.subTest(words), self.assertRaisesRegex(schema.Unknown, words):
                schema.schema_of(text)

    def test_the_program(self) -> None:
        ran = subprocess.run([TOP / "tools" / "schema"], capture_output=True, text=True)
        self.assertEqual((ran.returncode, ran.stdout, ran.stderr), (0, schema.FILE.read_text(), ""))
        self.assertEqual(subprocess.run([TOP / "tools" / "schema", "--colour"], capture_output=True).returncode, 1)


@unittest.skipUnless(jsonschema, "no jsonschema (Debian's python3-jsonschema)")
class Validated(unittest.TestCase):
    """What a validator says by the schema."""

    def setUp(self) -> None:
        self.schema = json.loads(schema.FILE.read_text())
        self.validator = jsonschema.Draft7Validator(self.schema)

    def is_refused(self, text: str) -> bool:
        return not self.validator.is_valid(tomllib.loads(text.removeprefix("\ufeff")))

    def test_the_schema_is_one(self) -> None:
        jsonschema.Draft7Validator.check_schema(self.schema)

    def test_examples(self) -> None:
        self.assertGreater(len(systems()), 10)
        for path in systems():
            with self.subTest(path.name):
                self.assertEqual([error.message for error in self.validator.iter_errors(tomllib.loads(path.read_text()))], [])

    def test_systems_that_the_program_takes(self) -> None:
        for path in sorted((JUDGED / "systems").iterdir()):
            with self.subTest(path.name):
                self.assertFalse(self.is_refused(path.read_text()))

    def test_slips(self) -> None:
        """Those of kinds, keys, ranges, lengths and texts are found; those of names and of what isn't TOML are not."""
        tried = 0
        for slip in slips():
            says = re.fullmatch(r"qp: clock.toml: (([0-9]+) .*)", slip["says"][0])
            if "clock.toml" not in slip["words"][0] or not says and slip["says"][0] != "-":
                continue
            code = int(says[2]) if says else 0
            files = clock_files()
            change_all(files, slip["words"][0].split(), slip["change"][0])
            with self.subTest(slip["slip"][0]):
                tried += 1
                if code == 1:
                    self.assertRaises(tomllib.TOMLDecodeError, tomllib.loads, files["clock.toml"])
                elif not says or not _ELSEWHERE.match(says[1]):
                    self.assertEqual(self.is_refused(files["clock.toml"]), code in FOUND)
        self.assertGreater(tried, 30)

    def test_what_it_refuses_the_program_refuses(self) -> None:
        """On the table of faults, whose answers are the program's: what is refused has a code, and what has a code that can be found is refused,
        unless it hangs on something else."""
        found = 0
        for block in blocks("system-faults"):
            keys = dict(block)
            parts = [(JUDGED / value).read_text() if key == "system file" else f"{value}\n" for key, value in block
                     if key in ("system", "system file") and value != "\\"]
            for given in [plain(value) for key, value in block if key == "for"] or ["".join(parts)]:
                try:
                    is_refused = self.is_refused(given)
                except (tomllib.TOMLDecodeError, RecursionError):
                    continue
                says = keys["answer"].partition("system: ")[2]
                code = int(says.split(" ")[0]) if says else 0
                with self.subTest(keys.get("case"), given=given[-300:]):
                    self.assertTrue(code or not is_refused)
                    if code in FOUND and not _ELSEWHERE.match(says):
                        self.assertTrue(is_refused)
                found += is_refused
        self.assertGreater(found, 15)

    @unittest.skipUnless(is_built(), "the program isn't built")
    def test_ranges_are_the_programs(self) -> None:
        """The least and the most of each number are taken by both, and what is beyond by neither."""
        places = {"pool": ("size = 1\nblocks = 1", "[[pool]]\n{}\n"), "signal": ("params = 0", '[[signal]]\nname = "X"\n{}\n'),
                  "timer": ("rate = 0", '[[chart.timer]]\nname = "T"\nsignal = "GO"\n{}\n'), "object": ("", "{}\n")}
        lamp = (EXAMPLES / "lamp.toml").read_text()
        with tempfile.TemporaryDirectory() as folder:
            for row in schema.rows(PAGE):
                found = re.match(r"integer, ([0-9]+) to ([0-9]+)", row.kind)
                if not found:
                    continue
                least, most = int(found[1]), int(found[2])
                for value, is_within in ((least, True), (most, True), (least - 1, False), (most + 1, False)):
                    text = _with(lamp, places[row.table], row, value)
                    Path(folder, "s.toml").write_text(text)
                    note = call(["run", "--out", "summary", f"{folder}/s.toml", str(EXAMPLES / "go.txt")]).note
                    with self.subTest(row.table, key=row.key, value=value):
                        self.assertEqual(bool(re.search(rf": 5 [a-z0-9.]*{row.key}$", note.strip())), not is_within, note)
                        self.assertEqual(self.is_refused(text), not is_within)


def _with(lamp: str, place: tuple[str, str], row: schema.Row, value: int) -> str:
    """The lamp with this value of a key, in a table of its own or in the object's."""
    given, around = place
    line = f"{row.key} = {value}"
    if row.table == "object":
        kept = "\n".join(text for text in lamp.split("\n") if not re.match(rf"{row.key} *=", text)).rstrip("\n")
        return f"{kept}\n{line}\n"
    lines = [text for text in given.split("\n") if not text.startswith(f"{row.key} ")] + [line]
    more = around.format("\n".join(lines))
    if row.table == "timer":
        return lamp.replace("[[object]]", f"{more}[[object]]")
    pool = "" if row.table == "pool" or "static" in more else "[[pool]]\nsize = 8\nblocks = 1\n"
    return lamp.replace("qp = 1\n", f"qp = 1\n{pool}{more}", 1)


class Texts(unittest.TestCase):
    """The patterns of actions and expressions take every text of the grammar."""

    def setUp(self) -> None:
        self.random = random.Random(58)
        self.action = re.compile(schema._DEFINITIONS["action"]["pattern"])
        self.expression_of = re.compile(schema._DEFINITIONS["expression"]["pattern"])

    def name(self) -> str:
        return self.random.choice(("x", "p0", "p9", "post_x", "okay", "me2", "A" * 24, "_", "subscribed"))

    def space(self) -> str:
        return self.random.choice(("", " ", "  "))

    def expression(self, depth: int) -> str:
        """An expression whose operators are put together as the grammar has them."""
        return self.joined(("||",), lambda: self.joined(("&&",), lambda: self.compared(depth)))

    def joined(self, signs: tuple[str, ...], part: Any) -> str:
        text = part()
        while self.random.random() < 0.2:
            text += f"{self.space()}{self.random.choice(signs)}{self.space()}{part()}"
        return text

    def compared(self, depth: int) -> str:
        text = self.sum(depth)
        if self.random.random() < 0.3:
            text += f"{self.space()}{self.random.choice(('==', '!=', '<', '<=', '>', '>='))}{self.space()}{self.sum(depth)}"
        return text

    def sum(self, depth: int) -> str:
        return self.joined(("+", "-"), lambda: self.joined(("*", "/", "%"), lambda: self.unary(depth)))

    def unary(self, depth: int) -> str:
        if depth and self.random.random() < 0.3:
            return f"{self.random.choice('-!')}{self.space()}{self.unary(depth - 1)}"
        if depth and self.random.random() < 0.3:
            return f"({self.space()}{self.expression(depth - 1)}{self.space()})"
        return self.random.choice((self.name(), "p1", "p8", "ok", "me", "0", "7", "1000"))

    def event(self) -> str:
        values = [self.expression(1) for _ in range(self.random.randrange(4))]
        return self.name() + (f"{self.space()}({', '.join(values)})" if values else "")

    def plain(self) -> str:
        margin, reserve = (self.random.choice(("", f" {word} {self.random.choice((0, 9, 99, 199, 249, 255))}")) for word in ("margin", "reserve"))
        target = self.random.choice(("me", self.name()))
        return self.random.choice((
            f"{self.name()}{self.space()}={self.space()}{self.expression(3)}", f"say {self.expression(3)}", f"say({self.expression(2)})",
            f"post {target} {self.event()}{margin}{reserve}", f"lifo {self.event()}{reserve}", f"forward  {target}{margin}",
            f"publish {self.event()}{reserve}",
            "defer", "recall", "flush", f"subscribe {self.name()}", f"unsubscribe {self.name()}", f"disarm {self.name()}",
            f"arm {self.name()}{self.space()}({self.expression(1)}{self.space()},{self.space()}{self.expression(1)})",
            f"rearm {self.name()}({self.expression(1)})",
        ))

    def locked(self) -> str:
        inner = f"{self.space()};{self.space()}".join(self.plain() for _ in range(self.random.randrange(1, 4)))
        return f"locked {self.random.choice((1, 9, 10, 32))}{self.space()}[{self.space()}{inner}{self.space()}]"

    def test_texts_of_the_grammar(self) -> None:
        for _ in range(1500):
            action, guard = self.random.choice((self.plain, self.locked))(), self.expression(3)
            self.assertRegex(action, self.action)
            self.assertRegex(guard, self.expression_of)

    def test_deep_ones(self) -> None:
        """Sixteen signs and parentheses around one place, and texts of 200 letters, are taken in no time."""
        for text in ("(" * 16 + "x" + ")" * 16, "-" * 16 + "x", "-(" * 8 + "x" + ")" * 8, "x+" * 99 + "x", " ".join(["x", *["+ x"] * 49])):
            self.assertRegex(text, self.expression_of)
            self.assertRegex(f"y = {text}"[:200].rstrip("+ "), self.action)

    def test_texts_that_arent_in_the_grammar(self) -> None:
        for text in ("", " defer", "defer ", "now += 1", "now++", "x = a ? b : c", "x = a | b", "x = a and b", "x = 0x10", "x = 01", "x = a.b",
                     "GO()", "post me GO margin 256", "locked 0 [defer]", "locked 2 [ defer ; ]", "locked 2 [locked 3 [defer]]", "lifo me GO",
                     "post GO", "ok = 1", "x = post", "p1 = 2", f"{'A' * 25} = 1", "x = a < b < c", "say", "arm T", "arm T(1)", "rearm T(1, 2)",
                     "disarm T()", "defer 1"):
            with self.subTest(text):
                self.assertNotRegex(text, self.action)
        for text in ("", "a = b", "a <", "< a", "a b", "say 1", "a == b == c", "!", "1 2", "a &", "a & b"):
            with self.subTest(text):
                self.assertNotRegex(text, self.expression_of)
