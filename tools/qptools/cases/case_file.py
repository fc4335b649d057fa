"""Reads `cases.toml`: runs of systems, each with what is expected of it, and where that stands."""

import re
import tomllib
from collections.abc import Callable
from dataclasses import dataclass, field
from pathlib import Path
from typing import Any

from qpviewer.positions import Lines, read_lines

#: The kernels with one thread, in which a run is the only one of its files, and those with threads, in which two may differ.
ONE_THREAD, THREADED = ("sim", "qv"), ("qk", "port", "wait")
KERNELS = ONE_THREAD + THREADED
#: The kernels whose orders can be gone through.
SEARCHED = ("qk", "port")


def _is_text(value: Any) -> bool:
    return isinstance(value, str)


def _is_count(value: Any) -> bool:
    return _is_number(value) and value >= 0


def _is_number(value: Any) -> bool:
    return isinstance(value, int) and not isinstance(value, bool)


def _are_kernels(value: Any) -> bool:
    names = [value] if isinstance(value, str) else value
    return isinstance(names, list) and bool(names) and all(name in KERNELS for name in names)


def _are_searched(value: Any) -> bool:
    names = [value] if isinstance(value, str) else value
    return isinstance(names, list) and bool(names) and all(name in SEARCHED for name in names)


def _are_texts(value: Any) -> bool:
    return isinstance(value, list) and all(map(_is_text, value))


def _are_tables(value: Any) -> bool:
    return isinstance(value, dict) and all(isinstance(member, dict) for member in value.values())


def _are_variables(value: Any) -> bool:
    return isinstance(value, dict) and all(map(_is_number, value.values()))


def _are_numbers(value: Any) -> bool:
    return isinstance(value, list) and all(map(_is_number, value))


#: Each key of a case and of an object, with whether a value is one of it, and what one is.
_Keys = dict[str, tuple[Callable[[Any], bool], str]]
_CASE: _Keys = {
    "name": (_is_text, "a text"), "system": (_is_text, "a text"), "stimuli": (_is_text, "a text"),
    "kernel": (_are_kernels, f"a kernel, or a list of them; a kernel is {', '.join(KERNELS[:-1])} or {KERNELS[-1]}"),
    "budget": (lambda value: _is_number(value) and 1 <= value <= 1_000_000, "a number, 1 to 1000000"),
    "end": (lambda value: _is_number(value) and value in (0, 3, 4), "0, 3 or 4"),
    "refused": (_is_count, "a number"), "blocks_back": (lambda value: isinstance(value, bool), "true or false"),
    "object": (_are_tables, "tables, as object.NAME"), "summary": (_is_text, "the name of a file"),
    "explore": (_are_searched, '"qk", "port" or both'), "most": (lambda value: _is_number(value) and 1 <= value <= 10_000_000, "a number, 1 to 10000000"),
    "never": (_are_texts, "a list of tests"), "ends": (_are_texts, "a list of tests"), "reaches": (_are_texts, "a list of tests"),
}
_OBJECT: _Keys = {
    "state": (_is_text, "a text"), "took": (_is_count, "a number"), "vars": (_are_variables, "a table of whole numbers"),
    "said": (_are_numbers, "a list of whole numbers"),
}


class CaseFault(Exception):
    """A file of cases that can't be run: where, as `FILE:LINE`, and what is wrong."""


class CaseText:
    """A file of cases as it was read: the line of each key."""

    def __init__(self, path: Path, data: bytes):
        self.path = path
        self._text = data.decode("utf-8-sig", errors="replace").split("\n")
        self._lines: Lines = read_lines(data)

    def place(self, key: str) -> str:
        """`FILE:LINE` of a key, as `case.1.object.clock.took`, or of the innermost table around it that is there."""
        return f"{self.path}:{self._lines.line_of(key)}"

    def place_in_text(self, key: str, number: int) -> str:
        """`FILE:LINE` of a line, from 1, of the text that a key has."""
        line = self._lines.line_of(key)
        head = self._text[line - 1].rstrip()
        if '"""' not in head and "'''" not in head:
            return f"{self.path}:{line}"
        begins_below = head.endswith(('"""', "'''"))
        return f"{self.path}:{line + number - 1 + begins_below}"


@dataclass(frozen=True)
class Expected:
    """What is expected of an object; none where nothing is."""

    state: str | None = None
    took: int | None = None
    vars: dict[str, int] = field(default_factory=dict)
    said: list[int] | None = None


@dataclass(frozen=True)
class Case:
    """A system under stimuli with a budget, and what has to come of it under some kernels: the run's end, how many calls are refused,
    whether all blocks come back, the whole summary, and of each object what is named. Under the other kernels any end will do. Every order is gone
    through under the kernels that `explore` names, of up to `most` states, with the tests of what never holds, of each quiet end and of what is reached."""

    source: CaseText
    number: int
    name: str
    system: Path
    stimuli: Path | str
    kernels: tuple[str, ...] = ONE_THREAD
    budget: int = 100_000
    end: int = 0
    refused: int | None = None
    blocks_back: bool | None = None
    summary: str | None = None
    summary_file: Path | None = None
    objects: dict[str, Expected] = field(default_factory=dict)
    explore: tuple[str, ...] = ()
    most: int = 100_000
    never: tuple[str, ...] = ()
    ends: tuple[str, ...] = ()
    reaches: tuple[str, ...] = ()

    def place(self, key: str = "") -> str:
        """`FILE:LINE` of one of the case's keys, or of the case itself."""
        return self.source.place(f"case.{self.number}.{key}" if key else f"case.{self.number}")

    def place_in_stimuli(self, number: int) -> str:
        """`FILE:LINE` of a line of the stimuli, from 1."""
        if isinstance(self.stimuli, Path):
            return f"{self.stimuli}:{number}"
        return self.source.place_in_text(f"case.{self.number}.stimuli", number)


def read_cases(path: Path) -> list[Case]:
    """The cases of a file. Raises `CaseFault`."""
    try:
        data = path.read_bytes()
    except OSError as error:
        raise CaseFault(f"{path}: can't be read: {error.strerror}") from None
    tree = _tree(path, data)
    source = CaseText(path, data)
    tables = tree.get("case")
    if set(tree) != {"case"} or not isinstance(tables, list) or not all(isinstance(table, dict) for table in tables):
        odd = next((key for key in tree if key != "case"), "case")
        raise CaseFault(f"{source.place(odd)}: the file has [[case]] tables and nothing else")
    return [_case(source, number, table) for number, table in enumerate(tables, 1)]


def _tree(path: Path, data: bytes) -> dict[str, Any]:
    """The TOML of a file. Raises `CaseFault` with the line that isn't TOML."""
    try:
        return tomllib.loads(data.decode("utf-8-sig"))
    except UnicodeDecodeError as error:
        line, words = data.count(b"\n", 0, error.start) + 1, "isn't text in UTF-8"
    except RecursionError:
        line, words = 1, "isn't TOML that this reader takes: it nests too deep"
    except ValueError as error:
        found = re.search(r"at line ([0-9]+)", str(error))
        line, words = int(found[1]) if found else data.count(b"\n") + 1, f"isn't TOML: {error}"
    raise CaseFault(f"{path}:{line}: {words}")


def _case(source: CaseText, number: int, table: dict[str, Any]) -> Case:
    at, name = f"case.{number}", f"case {table.get('name', number)}"
    _known(source, at, name, table, _CASE)
    for key in ("name", "system", "stimuli"):
        if key not in table:
            raise CaseFault(f"{source.place(at)}: {name}: {key} is missing")
    kernel = table.get("kernel", list(ONE_THREAD))
    kernels = tuple([kernel] if isinstance(kernel, str) else kernel)
    stimuli, folder = table["stimuli"], source.path.parent
    objects = table.get("object", {})
    for key, of in objects.items():
        _known(source, f"{at}.object.{key}", f"{name}: object {key}", of, _OBJECT)
    return Case(
        source, number, table["name"], folder / table["system"], stimuli if "\n" in stimuli else folder / stimuli, kernels,
        table.get("budget", 100_000), table.get("end", 0), table.get("refused"), table.get("blocks_back"),
        *_summary(source, at, name, folder, table),
        {key: Expected(of.get("state"), of.get("took"), of.get("vars", {}), of.get("said")) for key, of in objects.items()},
        *_properties(source, at, name, table),
    )


def _properties(source: CaseText, at: str, name: str, table: dict[str, Any]) -> tuple[tuple[str, ...], int, tuple[str, ...], tuple[str, ...], tuple[str, ...]]:
    """What is asked of every order. No assertion may come where a case doesn't say what never holds."""
    kernels = table.get("explore", [])
    for key in ("most", "never", "ends", "reaches"):
        if key in table and not kernels:
            raise CaseFault(f"{source.place(f'{at}.{key}')}: {name}: {key} is asked of every order, and explore is missing")
    never, ends, reaches = (tuple(table.get(key, [])) for key in ("never", "ends", "reaches"))
    if "never" not in table:
        never = ("assertion",)
    return tuple([kernels] if isinstance(kernels, str) else kernels), table.get("most", 100_000), never, ends, reaches


def _summary(source: CaseText, at: str, name: str, folder: Path, table: dict[str, Any]) -> tuple[str | None, Path | None]:
    """The whole summary that is expected, with its file; none where a case names none."""
    if "summary" not in table:
        return None, None
    path = folder / table["summary"]
    try:
        return path.read_text(), path
    except (OSError, ValueError) as error:
        raise CaseFault(f"{source.place(f'{at}.summary')}: {name}: summary: {error}") from None


def _known(source: CaseText, at: str, name: str, table: dict[str, Any], keys: _Keys) -> None:
    for key, value in table.items():
        place = source.place(f"{at}.{key}")
        if key not in keys:
            raise CaseFault(f"{place}: {name}: {key!r} is no key; the keys are {', '.join(sorted(keys))}")
        is_one, what = keys[key]
        if not is_one(value):
            raise CaseFault(f"{place}: {name}: {key} must be {what}")
