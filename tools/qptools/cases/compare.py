"""What of a run differs from what a case expects, in words."""

from typing import NamedTuple

from qpviewer.record_words import plural

from .case_file import Case, Expected
from .outcome import Outcome
from .summary import ObjectSummary


class Difference(NamedTuple):
    """What differs in words, and the key of the case that expects it otherwise; no key where every case does."""

    key: str
    words: str


def differences(case: Case, outcome: Outcome, kernel: str) -> list[Difference]:
    """All that differs; nothing where all is as expected. Under a kernel that the case doesn't name, all that is expected is a lawful
    journal and an order, or a cycle, of its records."""
    found = []
    if outcome.verdict != "lawful":
        found.append(Difference("", f"the journal is {outcome.verdict}, expected lawful"))
    elif outcome.replayed:
        found.append(Difference("", f"replayed: {outcome.replayed}"))
    if kernel not in case.kernels:
        return found
    for end in sorted({outcome.summary.end, outcome.story.journal.status} - {case.end}):
        found.append(Difference("end", f"end is {end}, expected {case.end}{_stop(outcome)}"))
    if case.summary is not None and outcome.text != case.summary:
        found += [Difference("summary", words) for words in _lines_that_differ(outcome.text, case.summary)]
    found += [Difference("refused", words) for words in _refusals(case, outcome)]
    found += [Difference("blocks_back", words) for words in _blocks(case, outcome)]
    for name, expected in case.objects.items():
        owner = next((entry for entry in outcome.story.system.objects if entry.name == name), None)
        key = f"object.{name}"
        if owner is None:
            found.append(Difference(key, f"the system has no object {name}"))
        else:
            of = _object(name, expected, outcome.summary.objects[name], outcome.said(owner.priority))
            found += [Difference(f"{key}.{inner}", words) for inner, words in of]
    return found


def _stop(outcome: Outcome) -> str:
    stop = outcome.story.stop()
    return f": {' '.join(outcome.story.in_words(stop))}" if stop is not None else ""


def _lines_that_differ(text: str, wanted: str) -> list[str]:
    pairs = zip(text.splitlines(), wanted.splitlines())
    found = [f"the summary has `{line}`, expected `{other}`" for line, other in pairs if line != other]
    return found or ["the summary has another number of lines"]


def _refusals(case: Case, outcome: Outcome) -> list[str]:
    refused = outcome.refused()
    if case.refused is None or len(refused) == case.refused:
        return []
    first = f"; the first: {' '.join(outcome.story.in_words(refused[0]))}" if refused else ""
    verb = "is" if len(refused) == 1 else "are"
    return [f"{plural(len(refused), 'call')} {verb} refused, expected {case.refused}{first}"]


def _blocks(case: Case, outcome: Outcome) -> list[str]:
    if case.blocks_back is None:
        return []
    out = [(number, given - back) for number, (given, back) in enumerate(outcome.summary.pools, 1) if given != back]
    if case.blocks_back:
        return [f"pool {number} has {left} out, expected all back" for number, left in out]
    return [] if out else ["all blocks are back, expected some out"]


def _object(name: str, expected: Expected, found: ObjectSummary, said: list[int]) -> list[Difference]:
    told = []
    if expected.state is not None and found.state != expected.state:
        in_words = found.state or "no state, since its step is cut off"
        told.append(Difference("state", f"{name} is in {in_words}, expected {expected.state}"))
    if expected.took is not None and found.taken != expected.took:
        told.append(Difference("took", f"{name} took {plural(found.taken, 'event')}, expected {expected.took}"))
    for variable, value in expected.vars.items():
        if words := _variable(name, variable, value, found):
            told.append(Difference(f"vars.{variable}", words))
    if expected.said is not None and said != expected.said:
        told.append(Difference("said", f"{name} said {said}, expected {expected.said}"))
    return told


def _variable(name: str, variable: str, value: int, found: ObjectSummary) -> str:
    """What differs in a variable; nothing where nothing does."""
    if found.state is None:
        return f"{name}'s {variable} can't be told, since its step is cut off"
    if variable not in found.vars:
        return f"{name} has no variable {variable}"
    return f"{name}'s {variable} is {found.vars[variable]}, expected {value}" if found.vars[variable] != value else ""
