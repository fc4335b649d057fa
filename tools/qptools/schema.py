"""The JSON schema of a system's file, for editors: made of the table of keys in docs/FORMATS.md, section 1.

A schema asks for less than the program does: it knows kinds, ranges and lengths, and of texts how their words and signs follow one another, but no
name that is declared elsewhere. Whatever it refuses, the program refuses too.
"""

import json
import re
import sys
from collections.abc import Callable
from typing import Any, NamedTuple

from qpviewer.toml_table import RESERVED

from .program import TOP

USAGE = """usage: tools/schema [--write]

Prints the JSON schema of a system's file, which is made of the table of keys in docs/FORMATS.md, section 1. With --write it writes it to
docs/system.schema.json, where editors find it. Ends with 2 where the table has a kind of value that isn't known."""

PAGE, FILE = TOP / "docs" / "FORMATS.md", TOP / "docs" / "system.schema.json"
_HEAD = "| Table | Key | What it is | Type and range | Default |"

Schema = dict[str, Any]


class Unknown(Exception):
    """A row of the table that isn't understood."""


class Row(NamedTuple):
    """A key of a table: what it is, what its values are, and what it is where it is left out, in words."""

    table: str
    key: str
    what: str
    kind: str
    default: str


def rows(page: str) -> list[Row]:
    """The rows of the page's table."""
    found: list[Row] = []
    for line in page.partition(f"{_HEAD}\n")[2].split("\n\n")[0].split("\n")[1:]:
        cells = [cell.strip().strip("`") for cell in line.strip("|").split("|")]
        if len(cells) != 5:
            raise Unknown(f"the row `{line}` hasn't five cells")
        found.append(Row(cells[0] or found[-1].table, *cells[1:]))
    return found


# Texts. Each pattern takes all texts of the grammar, and some others: parentheses aren't counted.

_NUMBER = "(?:0|[1-9][0-9]*)"
_NAME = "[A-Za-z_][A-Za-z0-9_]{0,23}"
_WORDS = sorted(RESERVED - {"me", "ok", *(f"p{place}" for place in range(1, 9))})
_NO_WORD = rf"(?!(?:{'|'.join(_WORDS)})\b)"
_COMPARED = "(?:==|!=|<=|>=|<|>)"
#: Two comparisons in one expression, with no parenthesis and no `&&` or `||` between them.
_TWICE = rf"{_COMPARED}[^()&|<>=!,;]*{_COMPARED}"
_OPERAND = rf"(?:[-!(] *)*(?:{_NUMBER}(?![A-Za-z0-9_])|{_NO_WORD}{_NAME}(?![A-Za-z0-9_]))(?: *\))*"
_EXPRESSION = rf"{_OPERAND}(?: *(?:\|\||&&|{_COMPARED}|[-+*/%]) *{_OPERAND})*"
_SHORT = "(?:[0-9]|[1-9][0-9]|1[0-9]{2}|2[0-4][0-9]|25[0-5])"
_MARGIN, _RESERVE = rf"(?: *margin *{_SHORT}(?![0-9]))?", rf"(?: *reserve *{_SHORT}(?![0-9]))?"
_NAMED = rf"(?!(?:{'|'.join(sorted(RESERVED))})\b){_NAME}(?![A-Za-z0-9_])"
_OBJECT = rf"(?:me(?![A-Za-z0-9_])|{_NAMED})"
_VALUES = rf"\( *{_EXPRESSION}(?: *, *{_EXPRESSION})* *\)"
_EVENT = rf"{_NAMED}(?: *{_VALUES})?"
_PLAIN = "|".join((
    rf"{_NAMED} *= *{_EXPRESSION}", rf"say(?![A-Za-z0-9_]) *{_EXPRESSION}", rf"post +{_OBJECT} +{_EVENT}{_MARGIN}{_RESERVE}",
    rf"lifo +{_EVENT}{_RESERVE}", rf"forward +{_OBJECT}{_MARGIN}", rf"publish +{_EVENT}{_RESERVE}", "defer", "recall", "flush",
    rf"(?:subscribe|unsubscribe|disarm) +{_NAMED}", rf"arm +{_NAMED} *\( *{_EXPRESSION} *, *{_EXPRESSION} *\)",
    rf"rearm +{_NAMED} *\( *{_EXPRESSION} *\)",
))
_LOCKED = rf"locked *(?:[1-9]|[12][0-9]|3[0-2])(?![0-9]) *\[ *(?:{_PLAIN})(?: *; *(?:{_PLAIN}))* *\]"

_DEFINITIONS: Schema = {
    "name": {"type": "string", "pattern": rf"^(?!(?:{'|'.join(sorted(RESERVED))})$){_NAME}$",
             "description": "A letter or `_`, then letters, digits and `_`, at most 24 in all; no word of actions."},
    "expression": {"type": "string", "maxLength": 200, "pattern": rf"^(?!.*{_TWICE}){_EXPRESSION}$",
                   "description": "An expression, as `p1 > 0 && p1 < 100`."},
    "action": {"type": "string", "maxLength": 200, "pattern": rf"^(?!.*{_TWICE})(?:{_PLAIN}|{_LOCKED})$",
               "description": "An action, as `post lamp GO`, `x = x + 1` or `arm T(10, 0)`."},
    "actions": {"type": "array", "maxItems": 16, "items": {"$ref": "#/definitions/action"}},
    "integer": {"type": "integer", "minimum": -2**63, "maximum": 2**63 - 1},
}


def _ref(name: str) -> Schema:
    return {"$ref": f"#/definitions/{name}"}


def _tables(key: str, least: int, most: int) -> Schema:
    return {"type": "array", **({"minItems": least} if least else {}), "maxItems": most, "items": _ref(key)}


def _variables(**more: Any) -> Schema:
    return {"type": "object", "propertyNames": _ref("name"), "additionalProperties": _ref("integer"), **more}


#: What the words of a type and range mean; they are looked for in this order.
_KINDS: tuple[tuple[str, Callable[[str, re.Match[str]], Schema]], ...] = (
    (r"the integer ([0-9]+)", lambda key, found: {"type": "integer", "const": int(found[1])}),
    (r"at most ([0-9]+) tables", lambda key, found: _tables(key, 0, int(found[1]))),
    (r"([0-9]+) to ([0-9]+) tables", lambda key, found: _tables(key, int(found[1]), int(found[2]))),
    (r"integer, ([0-9]+) to ([0-9]+)(?:, .*)?", lambda key, found: {"type": "integer", "minimum": int(found[1]), "maximum": int(found[2])}),
    (r"at most ([0-9]+) names with integers of 64 bits", lambda key, found: _variables(maxProperties=int(found[1]))),
    (r"names of variables with integers", lambda key, found: _variables()),
    (r"name(?: of .*)?", lambda key, found: _ref("name")),
    (r"list of actions", lambda key, found: _ref("actions")),
    (r"expression", lambda key, found: _ref("expression")),
    (r"boolean", lambda key, found: {"type": "boolean"}),
)


def _kind(row: Row) -> Schema:
    """The schema of a key's values. Raises `Unknown`."""
    for pattern, make in _KINDS:
        if found := re.fullmatch(pattern, row.kind):
            return make(row.key, found)
    raise Unknown(f"`{row.key}` of {row.table} is {row.kind!r}, and no such kind is known")


def _key(row: Row) -> Schema:
    """The schema of a key, with what it is and its default for who asks the editor."""
    told = [row.what.replace("`", "") or row.key, row.kind, f"default: {row.default}" if row.default else "must be there"]
    return {"description": "; ".join(told), "allOf": [_kind(row)]}


def _table(of: list[Row]) -> Schema:
    """The schema of a table."""
    schema: Schema = {
        "type": "object", "additionalProperties": False, "properties": {row.key: _key(row) for row in of},
        "required": [row.key for row in of if not row.default],
    }
    needs = [(row.key, found[1]) for row in of if (found := re.search(r"; it needs `?([a-z_]+)", row.what))]
    if needs:
        schema["allOf"] = [
            {"if": {"properties": {key: {"type": "array", "minItems": 1}}, "required": [key]}, "then": {"required": [needed]}}
            for key, needed in needs
        ]
    return schema


def schema_of(page: str) -> Schema:
    """The schema, by the table of a page. Raises `Unknown`."""
    tables: dict[str, list[Row]] = {}
    for row in rows(page):
        tables.setdefault(row.table, []).append(row)
    if "top" not in tables:
        raise Unknown("the page has no table of keys")
    return {
        "$schema": "http://json-schema.org/draft-07/schema#",
        "title": "A system of active objects",
        "$comment": "Made by tools/schema of the table in docs/FORMATS.md, section 1.",
        **_table(tables.pop("top")),
        "definitions": _DEFINITIONS | {name: _table(of) for name, of in tables.items()},
    }


def schema_text(page: str) -> str:
    """The schema's file. Raises `Unknown`."""
    return json.dumps(schema_of(page), indent=2) + "\n"


def main(words: list[str]) -> int:
    """Prints the schema, or writes it; answers the status."""
    if words in (["-h"], ["--help"]):
        print(USAGE)
        return 0
    if words not in ([], ["--write"]):
        print(USAGE, file=sys.stderr)
        return 1
    try:
        text = schema_text(PAGE.read_text())
    except Unknown as unknown:
        print(f"tools/schema: {PAGE}: {unknown}", file=sys.stderr)
        return 2
    if words:
        FILE.write_text(text)
    else:
        print(text, end="")
    return 0
