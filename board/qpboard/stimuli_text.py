"""Stimuli as tables of a host of `board/host`."""

import re

from qpviewer.faults import Fault
from qpviewer.system_parts import System

_OPTION = {"margin": re.compile(r" margin ([0-9]+)"), "reserve": re.compile(r" reserve ([0-9]+)")}
_KINDS = {"post": "STIMULUS_POST", "publish": "STIMULUS_PUBLISH", "tick": "STIMULUS_TICK", "settle": "STIMULUS_SETTLE"}
_HIGH, _BITS = 2**63, 2**64


def stimuli_text(system: System, name: str, sources: list[list[str]]) -> str:
    """The tables of the sources' lines, for the tables NAME. Raises `Fault` for one whose numbers don't fit."""
    lines = [f'#include "{name}.h"', '#include "stimuli.h"', ""]
    heads = []
    for number, source in enumerate(sources, 1):
        heads.append(f"    {{ {f'l_source_{number}' if source else 'NULL'}, {len(source)} }},")
        if source:
            lines += [f"static stimulus const l_source_{number}[] = {{", *(_row(system, line) for line in source), "};"]
    lines += ["stimuli_source const stimuli_sources[] = {", *(heads or ["    { NULL, 0 },"]), "};"]
    lines += [f"unsigned const stimuli_source_count = {len(sources)};", "unsigned const stimuli_object_count = QPB_OBJECTS;", ""]
    return "\n".join(lines)


def _row(system: System, line: str) -> str:
    word, *rest = line.split(" ")
    to, signal, params = 0, 0, list[int]()
    if word == "tick":
        to = int(rest[0])
    elif word in ("post", "publish"):
        if word == "post":
            to = next(place for place, owner in enumerate(system.objects) if owner.name == rest[0])
        signal, params = _event(system, line, rest[1] if word == "post" else rest[0])
    margin, reserve = (_option(line, name) for name in ("margin", "reserve"))
    values = ", ".join(_value_text(value) for value in params) or "0"
    return f"    {{ {_KINDS[word]}, {to}, {signal}, {margin}, {reserve}, {{ {values} }} }}, /* {line} */"


def _event(system: System, line: str, text: str) -> tuple[int, list[int]]:
    name, _, values = text.partition("(")
    params = [int(value) for value in values.rstrip(")").split(",")] if values else []
    signal = system.signals[name]
    if len(params) != signal.params:
        raise Fault(line, f"{name} has {signal.params} parameters, not {len(params)}")
    if any(value >= _BITS for value in params):
        raise Fault(line, "a parameter has more than 64 bits")
    return signal.number, params


def _option(line: str, name: str) -> int:
    found = _OPTION[name].search(line)
    if found and int(found[1]) > 255:
        raise Fault(line, f"{name} isn't 0 to 255")
    return int(found[1]) if found else -1


def _value_text(bits: int) -> str:
    """The signed value of 64 bits."""
    if bits == _HIGH:
        return "INT64_MIN"
    return f"INT64_C({bits - _BITS if bits > _HIGH else bits})"
