"""Reads files by their names, and says in a line why one of them can't be read."""

from collections.abc import Callable
from pathlib import Path
from typing import NamedTuple, TypeVar

from .faults import Fault
from .journal import Journal, read_journal
from .stimuli import read_stimuli
from .system import read_system
from .system_parts import System

_Value = TypeVar("_Value")


class Unread(Exception):
    """A line that says which file can't be read, and why."""


class Run(NamedTuple):
    """A system, the stimuli of each source as their lines, and a journal."""

    system: System
    stimuli: list[list[str]]
    journal: Journal


def read_run(system_name: str, stimuli_name: str, journal_name: str) -> Run:
    """The run of three files. Raises `Unread` for the first one that can't be read."""
    system = read_file(system_name, read_system)
    stimuli = read_file(stimuli_name, lambda data: read_stimuli(data, system))
    return Run(system, stimuli, read_file(journal_name, read_journal))


def read_file(name: str, reader: Callable[[bytes], _Value]) -> _Value:
    """What a reader makes of a file. Raises `Unread`."""
    try:
        return reader(Path(name).read_bytes())
    except FileNotFoundError:
        raise Unread(f"{name}: absent") from None
    except (OSError, ValueError) as error:
        raise Unread(f"{name}: can't be read: {getattr(error, 'strerror', None) or error}") from None
    except Fault as fault:
        raise Unread(f"{name}: {fault}") from None
