"""What may be wrong in a line of a system's file that TOML's reader refuses."""

import re

#: What stands for a text in quotes while a line is looked at.
_TEXT = "\0"
_QUOTED = re.compile(r"\"[^\"]*\"|'[^']*'")
_AT = re.compile(r"\s*\(at line ([0-9]+), column [0-9]+\)")
#: How much of a line is looked at, at its begin and at its end.
_ENDS = 500


def not_toml(name: str, data: bytes, fault: str) -> list[str]:
    """TOML's own words with the line that they mean, and what may be wrong there."""
    lines = data.decode(errors="replace").splitlines()
    found = _AT.search(fault)
    at = int(found[1]) if found else len(lines) if "at end of document" in fault else _undecoded(data)
    said = _AT.sub("", fault).replace(" (at end of document)", "").strip()
    told = [f"{name}:{max(at, 1)}: {said}"]
    if 0 < at <= len(lines):
        told.append(f"| {lines[at - 1]}")
        told.append(_out_of_order(lines, at) or _twice(fault) or toml_habit(lines[at - 1], lines[at - 2] if at > 1 else ""))
    if not any(told[1:]) or not told[-1]:
        told.append(_unsaid(fault))
    return [line for line in told if line]


def _undecoded(data: bytes) -> int:
    """The line of the first byte that isn't UTF-8; the first line where there is none."""
    try:
        data.decode("utf-8-sig")
    except UnicodeDecodeError as error:
        return data.count(b"\n", 0, error.start) + 1
    return 1


def _out_of_order(lines: list[str], at: int) -> str:
    """Says of a header that a table within it stands above it, as a row above its first state."""
    header = re.match(r"\s*\[\[([\w.]+)\]\]", lines[at - 1])
    if not header:
        return ""
    inner = re.compile(rf"\s*\[\[({re.escape(header[1])}\.\w+)\]\]")
    for number, line in enumerate(lines[:at - 1], 1):
        if line.strip().startswith(f"[[{header[1]}]]"):
            return ""
        if found := inner.match(line):
            return f"[[{found[1]}]] in line {number} stands above its first [[{header[1]}]]: write it below the one that it belongs to"
    return ""


def _unsaid(fault: str) -> str:
    """What to do where the line shows no known habit."""
    if "codec can't decode" in fault or "invalid start byte" in fault:
        return "save the file as UTF-8"
    return "a line is `key = value`, `[[table]]`, a comment or empty; texts stand in quotes, lists in brackets, tables within a line in braces"


def _twice(fault: str) -> str:
    """What stands twice, where the reader's words say so."""
    if re.search(r"isn't TOML: Cannot declare \(.*\) twice", fault):
        return "a header of one table stands twice: tables of a list have double brackets, as [[object]]"
    return "a key stands twice in its table" if re.search("Cannot overwrite|immutable namespace|Duplicate inline table key", fault) else ""


#: What is looked for in a line without its texts and its comment, and what to write; the first that fits is told.
_HABITS = (
    (r"//|/\*", "a comment begins with `#`"),
    (r";\s*$", "no `;` ends a line"),
    (r"(?:^|[{,])\s*[\w.]+\s*(?:==|:=)", "one `=` stands between a key and its value"),
    (r"(?:^|[{,])\s*[\w.]+\s*:", "`=` stands between a key and its value, and no `:`"),
    (r"=\s*(?:TRUE|True)\b", "write `true`"),
    (r"=\s*(?:FALSE|False)\b", "write `false`"),
    (rf"{_TEXT}\s*{_TEXT}", "a comma is missing between two texts"),
    (rf"\{{[^}}]*[{_TEXT}\]0-9]\s+\w+\s*=", "a comma is missing between two keys"),
    (r"[=\[]\s*(?!true\b|false\b)[A-Za-z_]|,\s*(?!true\b|false\b)[A-Za-z_]\w*\s*(?!\s*[=.\w])", "names and texts stand in quotes"),
)


def toml_habit(line: str, before: str) -> str:
    """What to write in the place of a line; nothing where no habit is known. `before` is the line above it."""
    seen, above = _bare(line), _bare(before)
    if '"' in seen:
        return "a text ends with the quote that it began with"
    if seen.lstrip().startswith("{") and above.rstrip().endswith("}"):
        return "a comma is missing behind the line above"
    is_header = seen.lstrip().startswith("[")
    for pattern, advice in () if is_header else _HABITS:
        if re.search(pattern, seen):
            return advice
    if is_header or re.match(r"\s*[\w.]+\s*=", seen):
        if above.count("[") > above.count("]") or above.count("{") > above.count("}"):
            return "a bracket of the line above isn't closed"
        if seen.rstrip().endswith(",") and seen.count("[") == seen.count("]"):
            return "no comma ends a line, but within a list"
    return ""


def _bare(line: str) -> str:
    """A line with a sign for each of its texts, and without its comment."""
    short = line if len(line) <= 2 * _ENDS else line[:_ENDS] + line[-_ENDS:]
    return _QUOTED.sub(_TEXT, short).partition("#")[0]
