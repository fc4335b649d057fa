"""Tables: read back as they are and with each number changed; the numbers of the header; words, refusals and names."""

import contextlib
import io
import re
import tempfile
from collections.abc import Iterator
from pathlib import Path
from typing import Any
from unittest.mock import patch

from qpboard.building import BOARD
from qpboard.command import main as print_tables
from qpboard.desk import BadWords, read_words
from qpboard.numbers import BY_NAME, GIVEN_MARGIN, GIVEN_RESERVE, ME, OPERATIONS
from qpboard.read_back import differences
from qpboard.tables import Printed, tables_of
from qpviewer.actions import Binary, Name, Number, Unary, names_in, read_action, read_expression, value_of
from qpviewer.system import read_system

from .generating import make
from .places import EXAMPLES, example_systems

#: Examples and random systems whose tables are changed, one number after another.
_CHANGED = ("lamp.toml", "philosophers/table.toml", "telemetry/system.toml", "clock/clock.toml")
_CHANGED_NUMBERS = range(8)
_NUMBER = re.compile(r"(?<![A-Za-z_0-9])[0-9]+(?![A-Za-z_0-9])")
_COMMENT = re.compile(r"/\*.*?\*/", re.S)
#: Names of C that end in a number.
_LOCAL = re.compile(r"l_[a-z]+_[0-9]+")


def wrong_of_tables() -> Iterator[str]:
    """All that is wrong with what needs neither the program nor a compiler."""
    yield from _header()
    yield from _trees()
    yield from _words()
    yield from _refusals()
    yield from _stops()
    yield from _names()
    for path in example_systems():
        printed = _printed(path.read_bytes())
        yield from (f"{path.name}: {line}" for line in _differences(path.read_bytes(), printed))


def changed_numbers(most: int) -> tuple[int, list[str]]:
    """How many numbers and names of tables were changed, at most so many in each file, and which changes aren't found by reading back."""
    count, missed = 0, []
    for data in [(EXAMPLES / name).read_bytes() for name in _CHANGED] + [make(number).system.encode() for number in _CHANGED_NUMBERS]:
        system = read_system(data)
        head, body = tables_of(system, "tables", "system.toml")
        changes = [(change, body, change.what) for change in _changes(head, most)]
        changes += [(head, change, change.what) for change in _changes(body, most)]
        for changed_head, changed_body, what in changes:
            count += 1
            if not differences(system, str(changed_head), str(changed_body)):
                missed.append(what)
    return count, missed


class _Changed(str):
    """A text of which one number or name is changed, with what that was."""

    what: str


def _changes(text: str, most: int) -> Iterator[_Changed]:
    """The text with a number beside its comments one greater, or the name of a part of the tables another's."""
    bare = _COMMENT.sub(lambda found: re.sub(r"[^\n]", " ", found[0]), text)
    places = [*_NUMBER.finditer(bare), *_LOCAL.finditer(bare)]
    for found in places[::len(places) // most + 1]:
        other = str(int(found[0]) + 1) if found[0].isdigit() else f"{found[0]}9"
        changed = _Changed(text[:found.start()] + other + text[found.end():])
        changed.what = f"line {text.count(chr(10), 0, found.start()) + 1}: {found[0]}"
        yield changed


def _printed(data: bytes) -> Printed:
    return tables_of(read_system(data), "tables", "system.toml")


def _differences(data: bytes, printed: Printed) -> list[str]:
    return differences(read_system(data), printed.head, printed.body)


def _header() -> Iterator[str]:
    """The enum of the header has the numbers of the table."""
    text = _COMMENT.sub("", (BOARD / "qp_board.h").read_text())
    body = re.search(r"enum \{\s*QPB_OP_END,(.*?)\};", text, re.S)
    names = ["END", *re.findall(r"QPB_OP_([A-Z0-9]+)", body[1] if body else "")]
    if names != [operation.name for operation in OPERATIONS]:
        yield "the operations of qp_board.h aren't those of numbers.py"
    for name, value in (("GIVEN_MARGIN", GIVEN_MARGIN), ("GIVEN_RESERVE", GIVEN_RESERVE), ("ME", ME)):
        if not re.search(rf"\bQPB_{name} = {value}\b", text):
            yield f"QPB_{name} of qp_board.h isn't {value}"
    if any(BY_NAME[operation.name].number != operation.number for operation in OPERATIONS):
        yield "an operation stands twice in numbers.py"


def _trees() -> Iterator[str]:
    """Trees and values, by docs/FORMATS.md, section 2."""
    trees = {
        "1 - 2 - 3": Binary("-", Binary("-", Number(1), Number(2)), Number(3)),
        "a || b && c": Binary("||", Name("a"), Binary("&&", Name("b"), Name("c"))),
        "-a * b": Binary("*", Unary("-", Name("a")), Name("b")),
        "!(a == 1)": Unary("!", Binary("==", Name("a"), Number(1))),
    }
    for text, tree in trees.items():
        if read_expression(text) != tree:
            yield f"`{text}` isn't read as its tree"
    least = -(2**63)
    values = {"-7 / 2": -3, "-7 % 2": -1, "7 / 0": 0, "7 % 0": 0, "n / -1": least, "n % -1": 0, "n - 1": 2**63 - 1, "2 && 3": 1, "!5": 0,
              "1 < 2": 1, "-n": least, "9223372036854775807 + 1": least}
    for text, value in values.items():
        if value_of(read_expression(text), {"n": least}) != value:
            yield f"`{text}` isn't {value}"
    if list(names_in(read_expression("b + a * -b"))) != ["b", "a", "b"]:
        yield "the names of an expression aren't in their order"
    locked = read_action("locked 3 [post a X(1, p2) margin 2 reserve 0; say ok]")
    if (locked.ceiling, [one.word for one in locked.inner], locked.inner[0].margin, locked.inner[0].reserve) != (3, ["post", "say"], 2, 0):
        yield "`locked` isn't read with its actions"


def _words() -> Iterator[str]:
    """The words of the desk are those of `qp run`."""
    asked = read_words(["--kernel", "qv", "--budget=3", "a", "--", "-b"])
    if (asked.kernel, asked.budget, asked.form, asked.system, asked.stimuli) != ("qv", 3, 2, "a", "-b"):
        yield "the words of the desk aren't read"
    bad = ([], ["a"], ["a", "b", "c"], ["--kernel", "qk", "a", "b"], ["--budget", "0", "a", "b"], ["--budget", "1000001", "a", "b"],
           ["--budget", "", "a", "b"], ["--budget", "+1", "a", "b"], ["--form", "3", "a", "b"], ["--kernel", "qv", "--form", "1", "a", "b"],
           ["--kernel", "sim", "--kernel", "sim", "a", "b"], ["--out", "summary", "a", "b"], ["--kernel"], ["-k", "a", "b"])
    for words in bad:
        with contextlib.suppress(BadWords):
            read_words(list(words))
            yield f"the desk takes the words {words}"


def _refusals() -> Iterator[str]:
    """What `board/qpc` says where it prints nothing."""
    with tempfile.TemporaryDirectory() as name:
        folder = Path(name)
        (folder / "bad.toml").write_text("qp =")
        (folder / "file").write_text("")
        table = (
            ([], 1, "usage: "), (["a"], 1, "usage: "), (["--tables", "a", "b"], 1, "usage: "),
            ([f"{folder}/no.toml", "x"], 2, "no.toml: absent\n"), ([f"{folder}/bad.toml", f"{folder}/x"], 2, "bad.toml: "),
            ([str(EXAMPLES / "lamp.toml"), f"{folder}/file/x"], 7, "file/x: Not a directory\n"),
        )
        for words, status, line in table:
            told = io.StringIO()
            with contextlib.redirect_stderr(told):
                got = print_tables(list(words))
            if got != status or line not in told.getvalue():
                yield f"qpc {words}: status {got}: {told.getvalue()}"
        if (folder / "x").exists():
            yield "qpc made a folder for a system that it refused"


def _stops() -> Iterator[str]:
    """Tables that aren't the system end the command, and nothing is written."""
    def printed(*of: Any) -> Printed:
        head, body = tables_of(*of)
        return Printed(head, body.replace("{ 4, 2, 0, 0 }", "{ 4, 1, 0, 0 }"))

    told = io.StringIO()
    with tempfile.TemporaryDirectory() as name, patch("qpboard.command.tables_of", printed), contextlib.redirect_stderr(told):
        status = print_tables([str(EXAMPLES / "lamp.toml"), f"{name}/x"])
        if status != 8 or "chart lamp.off.row 1: its signal or its target" not in told.getvalue() or Path(name, "x").exists():
            yield f"qpc with a wrong target: status {status}: {told.getvalue()}"


def _names() -> Iterator[str]:
    """Names that would be one in C are told apart."""
    text = ('qp = 1\n[[signal]]\nname = "AO_a"\nstatic = true\n[[chart]]\nname = "a_b"\ninit = "c"\nstate = [{ name = "c" }]\n[[chart]]\nname = "a"\n'
            'init = "b_c"\nstate = [{ name = "b_c" }]\n[[object]]\nname = "a_SIG"\nchart = "a"\npriority = 1\nqueue = 1\n[[object]]\nname = "int"\n'
            'chart = "a_b"\npriority = 2\nqueue = 0\n').encode()
    printed = _printed(text)
    for name in ("AO_a_SIG = 4", "AO_a_SIG_ = 0", "AO_int = 1", "a_b_c_STATE = 1", "a_b_c_STATE_ = 1"):
        if f"    {name}," not in printed.head:
            yield f"NAME.h doesn't say {name}"
    yield from _differences(text, printed)
