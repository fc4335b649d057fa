"""The commands of `tools/qptest`."""

import sys
from argparse import Namespace
from collections.abc import Iterator
from difflib import get_close_matches
from pathlib import Path

from qpviewer.coverage import Coverage
from qpviewer.files import Unread, read_file
from qpviewer.foreign import first_foreign
from qpviewer.journal import Journal, read_journal
from qpviewer.low_water import LowWater
from qpviewer.stimuli import read_stimuli
from qpviewer.story import Story
from qpviewer.system import read_system
from qpviewer.system_parts import System

from ..entry import NOT_WRITTEN
from ..explain.command import explanation
from ..program import PROGRAM, call, is_built
from .case_file import KERNELS, THREADED, Case, CaseFault, read_cases
from .ends import NotRun, keep, outcomes, run_outcomes
from .ends_text import ends_text, orders_text, runs_text
from .every_order import try_orders
from .junit import junit_of
from .orders import lines_of
from .outcome import RUNS
from .tried import Tried, try_case
from .watch import watch
from .words import USAGE, BadWords, read_words

PASSED, FAILED, WRONG, NOT_BUILT = 0, 1, 2, 125
_HELP = ("-h", "--help")


def main(words: list[str]) -> int:
    """Runs what the words ask for; answers the status."""
    if not words or words[0] in _HELP or words[1:2] and words[1] in _HELP:
        print(USAGE, file=sys.stdout if words else sys.stderr)
        return PASSED if words else WRONG
    try:
        command, values = read_words(words)
        if command in ("cover", "low"):
            return (_cover if command == "cover" else _low)(values.system, values.journals)
        if not is_built():
            print("qptest: the program isn't built: ./qp build", file=sys.stderr)
            return NOT_BUILT
        return _orders(values) if command else _folders(values)
    except (Unread, BadWords, NotRun) as fault:
        print(f"qptest: {fault}", file=sys.stderr)
        return WRONG


def _journals(system: System, names: list[str]) -> Iterator[Journal]:
    """The journals of files. Raises `Unread` for one of another system."""
    for name in names:
        journal = read_file(name, read_journal)
        if foreign := first_foreign((record for lane in journal.lanes for record in lane), system):
            raise Unread(f"{name}: names {foreign.what}, which the system doesn't have; is it the journal of another system?")
        yield journal


def _cover(system_name: str, names: list[str]) -> int:
    system = read_file(system_name, read_system)
    coverage = Coverage(system)
    for journal in _journals(system, names):
        coverage.add(journal)
    print(coverage.text(), end="")
    return PASSED


def _low(system_name: str, names: list[str]) -> int:
    system = read_file(system_name, read_system)
    low = LowWater(system)
    for journal in _journals(system, names):
        low.add(Story(system, [], journal))
    print(low.text(), end="")
    return PASSED


def _orders(values: Namespace) -> int:
    """Runs stimuli in their orders, or again and again with threads; prints what comes of it, and keeps journals of it."""
    system = read_file(values.system, read_system)
    stimuli = read_file(values.stimuli, lambda data: read_stimuli(data, system))
    _need_run(values)
    folder = _empty_folder(values.keep) if values.keep else None
    if values.kernel in THREADED:
        groups, lines = run_outcomes(values.system, system, values.stimuli, values.kernel, values.most), list[list[str]]()
    else:
        found = outcomes(values.system, system, stimuli, values.kernel, values.most)
        groups, lines = found.groups, [lines_of(group.plan, stimuli, found.waiting) for group in found.groups]
    try:
        kept = keep(values.system, system, values.kernel, folder, groups, lines) if folder else []
    except OSError as error:
        print(f"qptest: {error.filename or folder}: can't be written: {error.strerror}", file=sys.stderr)
        return NOT_WRITTEN
    print(runs_text(groups, values.kernel, kept) if values.kernel in THREADED else orders_text(found, stimuli, kept), end="")
    if values.ends is None:
        return PASSED
    is_passed, told = ends_text(groups, values.ends)
    print(told, end="")
    return PASSED if is_passed else FAILED


def _need_run(values: Namespace) -> None:
    """Raises `BadWords` with what is wrong where the program refuses the system or the stimuli as they are."""
    words = ["run", "--out", "summary", "--", values.system, values.stimuli]
    ran = call(words)
    if ran.status not in RUNS:
        raise BadWords("\n      ".join([ran.note.strip(), *explanation(words, ran.note)]))


def _empty_folder(name: str) -> Path:
    """A folder for the journals of outcomes, which is made if it isn't there. Raises `BadWords` where it has some already."""
    folder = Path(name)
    try:
        folder.mkdir(parents=True, exist_ok=True)
        old = sorted(folder.glob("outcome-*"))
    except OSError as error:
        raise BadWords(f"{name}: can't be made: {error.strerror}") from None
    if old:
        raise BadWords(f"{name} has outcomes already, as {old[0].name}: remove them, or name another folder")
    return folder


def _folders(values: Namespace) -> int:
    for name in values.folders:
        if not Path(name).is_dir():
            raise BadWords(f"{name} is no folder")
    if not _case_files(values.folders):
        raise BadWords(f"no file cases.toml in {', '.join(values.folders)}")
    if values.junit and not Path(values.junit).parent.is_dir():
        raise BadWords(f"{values.junit}: there is no folder {Path(values.junit).parent}")
    if not values.watch:
        return _run_folders(values)
    watch(lambda: _run_watched(values), lambda: _watched(values.folders), lambda line: print(line, flush=True))


def _case_files(folders: list[str]) -> list[Path]:
    """The files of cases in the folders, each once."""
    return list(dict.fromkeys(file for name in folders for file in sorted(Path(name).rglob("cases.toml"))))


def _run_watched(values: Namespace) -> None:
    """Runs the cases; words that name none are said, and may be mended while it goes on, as a program that is just being built."""
    try:
        if not is_built():
            raise BadWords("the program isn't built: ./qp build")
        _run_folders(values)
    except BadWords as fault:
        print(f"qptest: {fault}", file=sys.stderr, flush=True)


def _watched(folders: list[str]) -> Iterator[Path]:
    """The files that a run of all cases reads, as far as the files of cases can be read."""
    yield PROGRAM
    for file in _case_files(folders):
        yield file
        try:
            cases = read_cases(file)
        except CaseFault:
            continue
        for case in cases:
            yield case.system
            yield from (other for other in (case.stimuli, case.summary_file) if isinstance(other, Path))


def _run_folders(values: Namespace) -> int:
    """Runs the cases of the folders, prints what comes of them, and writes it as a JUnit file where that is asked for."""
    cases, faults = list[Case](), list[str]()
    for file in _case_files(values.folders):
        try:
            cases += read_cases(file)
        except CaseFault as fault:
            faults.append(str(fault))
            print(fault, file=sys.stderr)
    if values.case and not faults:
        cases = _named(cases, values.case)
    tried = [] if faults else [_told(one) for case in cases for one in _tried(case)]
    failed = sum(1 for one in tried if one.failures)
    if not faults:
        print(f"{len(tried) - failed} passed, {failed} failed")
        _print_counts(tried, values)
    status = WRONG if faults else FAILED if failed else PASSED
    return _written(values.junit, junit_of(tried, faults), status) if values.junit else status


def _named(cases: list[Case], names: list[str]) -> list[Case]:
    """The cases that have one of the names. Raises `BadWords` for a name that no case has."""
    known = [case.name for case in cases]
    for name in names:
        if name not in known:
            near = get_close_matches(name, known, 1)
            raise BadWords(f"no case is called {name!r}" + (f"; did you mean {near[0]!r}?" if near else ""))
    return [case for case in cases if case.name in names]


def _tried(case: Case) -> Iterator[Tried]:
    """A case under each kernel, and by every order where it asks for that."""
    for kernel in KERNELS:
        yield try_case(case, kernel)
    for kernel in case.explore:
        yield try_orders(case, kernel)


def _told(tried: Tried) -> Tried:
    """Prints what came of a case."""
    print(tried.text(), end="", flush=True)
    return tried


def _written(name: str, data: bytes, status: int) -> int:
    """Writes a file; answers the status, or another one where the file can't be written and all else is as expected."""
    try:
        Path(name).write_bytes(data)
    except OSError as error:
        print(f"qptest: {name}: can't be written: {error.strerror}", file=sys.stderr)
        return status or NOT_WRITTEN
    return status


def _print_counts(tried: list[Tried], values: Namespace) -> None:
    """Prints of each system the rows that its runs took, and the least that was free in them, as far as that is asked for."""
    stories: dict[Path, list[Story]] = {}
    for one in tried:
        if one.story and (values.cover or values.low):
            stories.setdefault(one.case.system, []).append(one.story)
    for system, of in stories.items():
        coverage, low = Coverage(of[0].system), LowWater(of[0].system)
        for story in of:
            coverage.add(story.journal)
            low.add(story)
        print(f"{system}:")
        print(coverage.text() if values.cover else "", end="")
        print(low.text() if values.low else "", end="")
