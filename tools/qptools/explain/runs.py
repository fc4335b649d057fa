"""What ended a run, and what breaks a journal, in words: with the record, its line, and the names of the system."""

from qpviewer.files import Run
from qpviewer.holders import Holders
from qpviewer.journal import PORT, Record
from qpviewer.naming import Names
from qpviewer.place import record_of
from qpviewer.record_words import RecordWords, plural
from qpviewer.story import Story
from qpviewer.system_parts import System
from qpviewer.verdict import read_verdict, verdict_words

#: The assertion of an empty pool, and so many of its blocks are told one by one.
_EMPTY = 2
_TOLD = 8
_ADVICE = {
    1: "make its `queue` longer, or give the post a margin, as `margin 0`, which answers 0 there",
    2: "give the pool more `blocks`, or the event a reserve, as `reserve 0`, which answers 0 there",
    3: "disarm it first, or use `rearm`",
    4: "`arm T(n, i)` takes n from 1 to 65535 and i from 0 to 65535",
    5: "make its `queue` longer: a last-in post has no margin",
}


def _record_line(story: Story, index: int) -> str:
    who, words = story.in_words(index)
    record = story.records()[index][1]
    return f"line {story.line_of(index)} of the journal, `{record.text}`: {who} {words}"


def explain_stop(run: Run) -> list[str]:
    """The lines that explain why a run was stopped."""
    story = Story(*run)
    stop = story.stop()
    if stop is None:
        return []
    record = story.records()[stop][1]
    return [_record_line(story, stop), *_context(story, stop), *_action(story, stop), *_holders(story, stop, record), _advice(run.journal.budget, record)]


def _action(story: Story, stop: int) -> list[str]:
    """The action of a chart that asserted."""
    text = story.asserting_action(stop)
    return [f"the action is `{text}`"] if text else []


def _holders(story: Story, stop: int, record: Record) -> list[str]:
    """Who holds the blocks of the pool that is empty at an assertion."""
    if record.word != "assert" or record.numbers[1] != _EMPTY:
        return []
    holders = Holders(story.names)
    holders.tell(told for _, told in story.records()[:stop])
    held = holders.of_pool(record.numbers[2])
    more = [f"and {len(held) - _TOLD} blocks more"] if len(held) > _TOLD else []
    return [f"the blocks of pool {record.numbers[2]}:", *(f"  {line}" for line in held[:_TOLD]), *(f"  {line}" for line in more)]


def explain_long_stop(system: System, journal: bytes) -> list[str]:
    """The same for a long journal, as the program prints it, of which only the last record of each lane is looked at."""
    _, _, kernel, budget = journal[:journal.index(b"\n")].decode().split(" ")
    names = Names(system)
    for words in (("assert",), ("spent", "spill")):
        for lane, line, text in _last_records(journal):
            word, *tokens = text.split(" ")
            if word in words:
                record = Record(word, tuple(map(int, tokens)), text)
                who = names.object(record.numbers[0]) if record.numbers[0] else _owner(lane, int(kernel), system)
                told = f"line {line} of the journal, `{text}`: {who} {RecordWords(names).stop(record)}"
                return [told, _advice(int(budget), record)]
    return []


def _last_records(journal: bytes) -> list[tuple[int, int, str]]:
    """The number of each lane that has records, with the line and the text of its last one."""
    found, lane, before = [], -1, b"lane"
    for line, text in enumerate(journal.split(b"\n")):
        if text.startswith((b"lane ", b"end ")):
            if lane >= 0 and not before.startswith(b"lane"):
                found.append((lane, line, before.decode()))
            lane += 1
        before = text
    return found


def _owner(lane: int, kernel: int, system: System) -> str:
    """Who works in a lane for no object: the kernel, or a source."""
    source = lane - len(system.objects) if kernel == PORT else lane
    return f"source {source}" if source > 0 else "kernel"


def _context(story: Story, stop: int) -> list[str]:
    """The step or the stimulus in which a run was stopped."""
    owner = story.records()[stop][1].numbers[0]
    for step in reversed(story.steps.steps):
        if step.first <= stop <= step.last and step.object == owner:
            who = story.names.object(owner)
            if step.label < 0:
                return [f"in the start of {who}"]
            row = f", state {story.names.state(owner, step.state)}, row {step.handler}" if step.state else ""
            return [f"in {who}'s step of {story.words.labels[step.label]}{row}"]
    for stimulus in reversed(story.steps.stimuli):
        if stimulus.first <= stop <= stimulus.last:
            return [_record_line(story, stimulus.first).partition(": ")[2]]
    return []


def _advice(budget: int, record: Record) -> str:
    if record.word == "assert":
        return _ADVICE[record.numbers[1]]
    if record.word == "spent":
        took = plural(budget, "event")
        return f"it took {took} and has more: raise --budget, unless it always posts to itself and so never rests"
    return "no lane has room for more records: give the run fewer stimuli, or a lower --budget"


def explain_verdict(text: str, run: Run) -> list[str]:
    """The lines that explain a verdict."""
    verdict = read_verdict(text)
    if verdict is None:
        return []
    story = Story(*run)
    told = [verdict_words(verdict, story.names)]
    if foreign := story.foreign():
        line = f"line {story.line_of(foreign.place)} of the journal names {foreign.what}, which the system doesn't have"
        return [*told, f"{line}: is it the journal of another system?"]
    if place := record_of(verdict, story):
        index, why = place
        told += [f"look first at {_record_line(story, index)}", why]
    return told
