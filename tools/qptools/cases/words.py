"""The words of `tools/qptest`, read."""

import argparse
from typing import NoReturn

from .case_file import KERNELS, THREADED

USAGE = """usage: qptest [OPTION ..] FOLDER ..         runs all cases of the files cases.toml in the folders and below
         --case NAME                        the cases of this name alone; it may stand more than once
         --junit FILE                       writes what came of them as a JUnit file too
         --watch                            runs them again whenever a file changes
         --cover, --low                     prints of each system what `cover` and `low` print, over all its runs
       qptest cover SYSTEM JOURNAL ..       prints how many rows of each chart the journals took, and which they didn't
       qptest low SYSTEM JOURNAL ..         prints the least that was free in queues and pools (getQueueMin, getPoolMin)
       qptest orders [OPTION ..] SYSTEM STIMULI
                                            runs the orders of the sources' stimuli, each at once, behind settles and between,
                                            and prints their outcomes; with threads it runs the stimuli again and again
         --kernel sim|qv|qk|port|wait       the kernel (sim)
         --most N                           at most N orders, and N runs between (1000); with threads N runs (100)
         --ends 0|3|4                       ends with 1 where a run ends otherwise
         --keep FOLDER                      keeps a journal of each outcome there

A case runs under each kernel, and each journal is judged and replayed; what else is expected is asked under the kernels that the
case names, sim and qv if it names none. That takes some hundredths of a second a kernel. All but `cover` and `low` need the built
program: ./qp build. docs/TESTING.md says how a case is written. Ends with 0 where all is as expected, 1 where a case or an end isn't, 2 where
a file or a word is wrong, 7 where a file can't be written, 125 where the program isn't built."""

ENDS = (0, 3, 4)


class BadWords(Exception):
    """Words that aren't a call."""


class _Reader(argparse.ArgumentParser):
    """Reads words, and raises `BadWords` with what is wrong with them."""

    def __init__(self) -> None:
        super().__init__(prog="qptest", add_help=False, allow_abbrev=False)

    def error(self, message: str) -> NoReturn:
        raise BadWords(message)


def count(text: str) -> int:
    """A number from 1."""
    if not (text.isascii() and text.isdecimal() and int(text)):
        raise argparse.ArgumentTypeError(f"{text!r} isn't a number, 1 or more")
    return int(text)


def _of_folders(reader: _Reader) -> None:
    reader.add_argument("--case", metavar="NAME", action="append")
    reader.add_argument("--junit", metavar="FILE")
    for option in ("--watch", "--cover", "--low"):
        reader.add_argument(option, action="store_true")
    reader.add_argument("folders", metavar="FOLDER", nargs="+")


def _of_journals(reader: _Reader) -> None:
    reader.add_argument("system", metavar="SYSTEM")
    reader.add_argument("journals", metavar="JOURNAL", nargs="+")


def _of_orders(reader: _Reader) -> None:
    reader.add_argument("--kernel", choices=KERNELS, default="sim")
    reader.add_argument("--most", metavar="N", type=count)
    reader.add_argument("--ends", type=int, choices=ENDS)
    reader.add_argument("--keep", metavar="FOLDER")
    reader.add_argument("system", metavar="SYSTEM")
    reader.add_argument("stimuli", metavar="STIMULI")


#: The words that begin a call, with what stands behind them; a call of cases has no such word.
COMMANDS = {"cover": _of_journals, "low": _of_journals, "orders": _of_orders}
MOST, MOST_THREADED = 1000, 100


def read_words(words: list[str]) -> tuple[str, argparse.Namespace]:
    """The command of some words, which is empty for cases of folders, and its values. Raises `BadWords`."""
    command, rest = (words[0], words[1:]) if words[0] in COMMANDS else ("", words)
    reader = _Reader()
    COMMANDS.get(command, _of_folders)(reader)
    values = reader.parse_intermixed_args(rest)
    if command == "orders" and values.most is None:
        values.most = MOST_THREADED if values.kernel in THREADED else MOST
    return command, values
