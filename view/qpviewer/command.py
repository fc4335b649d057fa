"""The words of a call, its three files, and what is said where one of them can't be drawn."""

import sys
from pathlib import Path

from .beside import beside_page, beside_text, parting
from .faults import Fault
from .files import Unread, read_run
from .page import page_of
from .perfetto import perfetto
from .run_text import records_text, run_text
from .story import Story
from .verdict import Verdict, read_verdict

USAGE = """usage: qpview SYSTEM STIMULI JOURNAL [VERDICT] > run.html
       qpview --text SYSTEM STIMULI JOURNAL
       qpview --records SYSTEM STIMULI JOURNAL
       qpview --perfetto FILE SYSTEM STIMULI JOURNAL
       qpview --beside SYSTEM STIMULI JOURNAL OTHER > both.html
       qpview --parted SYSTEM STIMULI JOURNAL OTHER

Writes a page that shows a run. VERDICT is what `qp check` says of the journal, as 'broken D12 block 1 1': the page opens at
the record to look at first. A journal that names what the system doesn't have is drawn only with its verdict. With --text
the run is printed as text, a line for each start, step and stimulus; with --records a line for each record, whose line
number is the record's. With --perfetto trace events are written to FILE, for ui.perfetto.dev or chrome://tracing.
With --beside a page shows two runs side by side, each at the first record at which they part; with --parted that place is told as text, with
status 0 where the runs are the same and 1 where they part."""
#: The options that print a run as text.
_TEXTS = {"--text": run_text, "--records": records_text}

_TO_PERFETTO, _BESIDE, _PARTED = "--perfetto", "--beside", "--parted"

#: Statuses: words that aren't a call, a file that can't be drawn, a page that can't be written.
DONE, BAD_WORDS, BAD_FILE, NOT_WRITTEN = 0, 1, 2, 7
#: What `--parted` ends with where two runs part.
PARTED = 1

def main(words: list[str]) -> int:
    """Writes the page, or the run as text, to standard output; answers the status."""
    if words in (["-h"], ["--help"]):
        print(USAGE)
        return DONE
    made_text = _TEXTS.get(words[0]) if words else None
    if made_text:
        words = words[1:]
    if words[:1] == [_TO_PERFETTO]:
        return _write_perfetto(words[1:])
    if words[:1] in ([_BESIDE], [_PARTED]):
        return _compare(words[0], words[1:])
    if odd := next((word for word in words if word.startswith("--")), None):
        known = [*_TEXTS, _TO_PERFETTO, _BESIDE, _PARTED]
        where = "stands before the files" if odd in known else f"is no option; {', '.join(known[:-1])} and {known[-1]} are"
        print(f"qpview: {odd} {where}", file=sys.stderr)
        return BAD_WORDS
    if len(words) != 3 and (made_text or len(words) != 4):
        print(USAGE, file=sys.stderr)
        return BAD_WORDS
    try:
        verdict = _verdict(words[3]) if words[3:] else None
        story = Story(*read_run(words[0], words[1], words[2]))
        if not verdict:
            _refuse_foreign(story, words[2])
    except Unread as undrawn:
        print(f"qpview: {undrawn}", file=sys.stderr)
        return BAD_FILE
    written = made_text(story) if made_text else page_of(story, (words[0], words[1], words[2]), verdict)
    return _write(written)


def _compare(how: str, words: list[str]) -> int:
    """Two runs of one system and stimuli: a page of both, or where they part."""
    if len(words) != 4 or any(word.startswith("--") for word in words):
        print(USAGE, file=sys.stderr)
        return BAD_WORDS
    system, stimuli, *journals = words
    try:
        stories = [Story(*read_run(system, stimuli, name)) for name in journals]
        for story, name in zip(stories, journals):
            _refuse_foreign(story, name)
    except Unread as undrawn:
        print(f"qpview: {undrawn}", file=sys.stderr)
        return BAD_FILE
    one, other = stories
    written = beside_page(one, other, (system, stimuli, journals[0], journals[1])) if how == _BESIDE else beside_text(one, other, (journals[0], journals[1]))
    status = _write(written)
    return PARTED if status == DONE and how == _PARTED and parting(one, other) else status


def _write(text: str) -> int:
    try:
        sys.stdout.buffer.write(text.encode())
        sys.stdout.buffer.flush()
    except OSError as error:
        print(f"qpview: the page can't be written: {error.strerror}", file=sys.stderr)
        return NOT_WRITTEN
    return DONE


def _write_perfetto(words: list[str]) -> int:
    """Writes the trace events of a run to the file that stands first."""
    if len(words) != 4 or any(word.startswith("--") for word in words):
        print(USAGE, file=sys.stderr)
        return BAD_WORDS
    try:
        story = Story(*read_run(words[1], words[2], words[3]))
        _refuse_foreign(story, words[3])
    except Unread as undrawn:
        print(f"qpview: {undrawn}", file=sys.stderr)
        return BAD_FILE
    try:
        Path(words[0]).write_text(perfetto(story), encoding="utf-8")
    except OSError as error:
        print(f"qpview: {words[0]} can't be written: {error.strerror}", file=sys.stderr)
        return NOT_WRITTEN
    return DONE


def _verdict(text: str) -> Verdict | None:
    try:
        return read_verdict(text)
    except Fault as fault:
        raise Unread(str(fault)) from None


def _refuse_foreign(story: Story, name: str) -> None:
    """Refuses the journal of another system."""
    if foreign := story.foreign():
        raise Unread(
            f"{name}: line {story.line_of(foreign.place)}: names {foreign.what}, which the system doesn't have; "
            "is it the journal of another system? With its verdict as a fourth word it is drawn"
        )
