"""The words of `board/qpc`."""

import sys
from collections.abc import Callable
from pathlib import Path

from qpviewer.faults import Fault
from qpviewer.files import Unread, read_file
from qpviewer.system import read_system
from qpviewer.system_parts import System

from .asked import refused
from .c_names import file_name_of
from .qpc_sources import qpc_texts
from .read_back import differences
from .tables import tables_of

USAGE = """usage: qpc [--qpc] SYSTEM FOLDER

Prints a system as C: FOLDER/NAME.h and FOLDER/NAME.c, where NAME is that of the system's file. They are tables for the interpreter
board/qp_board.h; docs/BOARD.md says what a board adds. What was printed is read back and compared with the system.
  --qpc   sources for QP/C 8 in their place: state handlers, active objects, events and pools

Status: 0 done, 1 bad words, 2 a file has a fault, 7 the folder can't be written, 8 what was read back isn't the system.
"""
DONE, BAD_WORDS, BAD_FILE, NOT_WRITTEN, DIFFERENT = 0, 1, 2, 7, 8

#: The texts of files by their names.
Texts = dict[str, str]


class Differs(Exception):
    """Printed tables that aren't the system, with the first difference."""


def main(words: list[str]) -> int:
    """Prints what the words ask for; answers the status."""
    if words in (["-h"], ["--help"]):
        print(USAGE, end="")
        return DONE
    is_for_qpc = words[:1] == ["--qpc"]
    files = words[is_for_qpc:]
    if len(files) != 2 or any(word.startswith("-") for word in files):
        print(USAGE, end="", file=sys.stderr)
        return BAD_WORDS
    return _print(files[0], Path(files[1]), qpc_texts if is_for_qpc else table_texts)


def table_texts(system: System, name: str, source: str) -> Texts:
    """NAME.h and NAME.c, read back. Raises `Fault`, or `Differs`."""
    printed = tables_of(system, name, source)
    if different := differences(system, printed.head, printed.body):
        raise Differs(different[0])
    return {f"{name}.h": printed.head, f"{name}.c": printed.body}


def _print(system_name: str, folder: Path, texts_of: Callable[[System, str, str], Texts]) -> int:
    if status := refused(system_name):
        return status
    try:
        system = read_file(system_name, read_system)
        texts = texts_of(system, file_name_of(system_name), Path(system_name).name)
    except Unread as unread:
        return _tell(str(unread), BAD_FILE)
    except Fault as fault:
        return _tell(f"{system_name}: {fault}", BAD_FILE)
    except Differs as different:
        return _tell(f"{system_name}: what was printed isn't the system: {different}", DIFFERENT)
    try:
        folder.mkdir(parents=True, exist_ok=True)
        for file, text in texts.items():
            (folder / file).write_text(text)
    except OSError as error:
        return _tell(f"{folder}: {error.strerror}", NOT_WRITTEN)
    return DONE


def _tell(line: str, status: int) -> int:
    print(f"qpc: {line}", file=sys.stderr)
    return status
