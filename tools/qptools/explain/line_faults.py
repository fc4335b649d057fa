"""A fault of stimuli or of a journal in words: its code and its line."""

import re

from qpviewer.journal import ASSERTED, COUNTS, HEADS, MEANINGS
from qpviewer.system_parts import System

from .habits import habit_in_stimuli
from .names import like

_STIMULI = {
    1: "isn't a stimulus: `post OBJECT EVENT`, `publish EVENT`, `tick RATE` or `settle`",
    4: "sources are numbered `source 1`, `source 2` .., at most 16, and each stimulus stands below one",
}


def _line(data: bytes, number: int) -> str:
    lines = data.decode("utf-8", errors="replace").split("\n")
    return lines[number - 1] if number <= len(lines) else ""


def _shown(line: str) -> str:
    """A line as it stands, with what can't be seen in it made visible."""
    seen = line.replace("\r", "\\r").replace("\t", "\\t").replace("\ufeff", "\\ufeff")
    return f"| {seen}" if len(seen) <= 120 else f"| {seen[:117]}..."


def explain_stimuli(name: str, data: bytes, code: int, number: int, system: System | None) -> list[str]:
    """The lines that explain a fault of stimuli."""
    line = _line(data, number)
    words = line.split(" ")
    if code == 2 and system:
        said = _undeclared(words, system)
    elif code == 5 and system:
        said = _parameters(words, system)
    elif code == 3:
        said = _out_of_range(words)
    else:
        said = [_STIMULI.get(code, f"code {code}")]
        said += [habit_in_stimuli(line)] if code == 1 else []
    return [f"{name}:{number}: {said[0]}", _shown(line), *filter(None, said[1:])]


def _out_of_range(words: list[str]) -> list[str]:
    """Which number of a stimulus is out of range, and what to write."""
    if words[0] == "tick":
        return ["a rate is 0 to 3", "write the rate of the timer that is to count: `tick 0`"]
    for name in ("margin", "reserve"):
        value = words[words.index(name) + 1] if name in words[:-1] else "0"
        if value.isdigit() and int(value) > 255:
            return [f"`{name}` is 0 to 255", f"write `{name} 255` at most"]
    if "reserve" in words:
        return ["a static signal has no `reserve`, since its event lies in no pool", "leave the reserve out"]
    return ["a parameter has 64 bits", "write at most 18446744073709551615"]


def _signal_of(words: list[str]) -> str:
    event = words[2] if words[0] == "post" and len(words) > 2 else words[1] if len(words) > 1 else ""
    return event.partition("(")[0]


def _undeclared(words: list[str], system: System) -> list[str]:
    objects = [entry.name for entry in system.objects]
    if words[0] == "post" and len(words) > 1 and words[1] not in objects:
        if words[1].partition("(")[0] in system.signals:
            owner = words[2] if len(words) > 2 and words[2] in objects else "OBJECT"
            return [f"{words[1]} isn't an object, but a signal: a post names its object first", f"write `post {owner} {words[1]}`"]
        return _isnt(words[1], "object", objects)
    return _isnt(_signal_of(words), "signal", list(system.signals))


def _isnt(name: str, kind: str, known: list[str]) -> list[str]:
    near = like(name, known)
    return [f"the {kind} {name} isn't declared", f"did you mean {near}?" if near else f"the system has {', '.join(known[:8])}"]


def _parameters(words: list[str], system: System) -> list[str]:
    signal = system.signals.get(_signal_of(words))
    if signal is None:
        return ["the event has another number of parameters than its signal"]
    many = "1 parameter" if signal.params == 1 else f"{signal.params or 'no'} parameters"
    example = f"{signal.name}({','.join(['0'] * signal.params)})" if signal.params else signal.name
    return [f"{signal.name} has {many}", f"write {example}"]


def explain_journal(name: str, data: bytes, code: int, number: int) -> list[str]:
    """The lines that explain a fault of a journal's text."""
    line = _line(data, number)
    said = [MEANINGS.get(code, f"code {code}")]
    word = line.split(" ")[0].rstrip("\r")
    if line.endswith("\r"):
        said.append("the lines end as Windows ends lines, with \\r\\n: save the journal with \\n alone")
    elif data.startswith(b"\xef\xbb\xbf"):
        said.append("the file begins with a byte order mark: save it as UTF-8 without one")
    elif code == 1 and (near := like(word, [*COUNTS, *HEADS])):
        said.append(f"did you mean `{near}`?")
    elif code == 3:
        said.append(f"`{word}` has {_counts(word)}")
    elif code == 5:
        said.append("the run that wrote it was cut off, or the end was left out")
    shown = [_shown(line)] if line else []
    return [f"{name}:{number}: {said[0]}", *shown, *said[1:]]


def _counts(word: str) -> str:
    if word == "assert":
        return f"2 numbers and then {', '.join(f'{count} for code {code}' for code, count in ASSERTED.items())}"
    if word == "new":
        return "6 to 14 numbers"
    count = COUNTS.get(word) or HEADS.get(word)
    return "1 number" if count == 1 else f"{count} numbers"


_FRAMES = {
    1: "0x7D stands before a byte that isn't escaped",
    2: "the checksum is another one",
    3: "the sequence byte is another one: a frame was lost",
    4: "a frame is cut short",
    5: "no item has this id in this form",
    6: "the frame's item isn't allowed here, or the journal has no end",
    7: "a number isn't written in as few bytes as it needs",
}


def explain_frames(name: str, data: bytes, code: int, offset: int) -> list[str]:
    """The lines that explain a fault of a journal that is given as frames."""
    told = [f"{name}: byte {offset}: {_FRAMES.get(code, f'code {code}')}"]
    if re.match(rb"qp [12] ", data):
        told.append("this is a journal as text: `check` and `migrate` take it as it is")
    elif piece := data[offset:offset + 16]:
        told.append(f"| {piece.hex(' ')}")
    return told
