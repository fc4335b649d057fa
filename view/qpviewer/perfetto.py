"""A run as trace events in JSON, which Perfetto (ui.perfetto.dev) and Chrome (chrome://tracing) open.

A record's time is its place in the order, as so many microseconds. Objects, sources and the kernel have a track each, with steps and stimuli as
slices; what interrupts a step lies on a track of its own. A post is a flow from its record to the take of its entry. Queue lengths and free
blocks are counters.
"""

import json
from collections.abc import Iterator
from typing import Any

from .story import Story

#: The processes under which tracks and counters stand.
_RUN, _QUEUES, _POOLS = 1, 2, 3
_PROCESSES = {_RUN: "run", _QUEUES: "queues", _POOLS: "pools"}
_FLOWS = ("post", "publication", "time event", "last-in post")

TraceEvent = dict[str, Any]


def perfetto(story: Story) -> str:
    """The trace events of a run, a line for each."""
    lines = ",\n".join(json.dumps(event, separators=(",", ":"), ensure_ascii=False) for event in _events(story))
    return f'{{"displayTimeUnit":"ns","traceEvents":[\n{lines}\n]}}\n'


def _events(story: Story) -> Iterator[TraceEvent]:
    yield from _names(story)
    yield from _steps(story)
    yield from _stimuli(story)
    yield from _marks(story)
    yield from _flows(story)
    yield from _counters(story)


def _names(story: Story) -> Iterator[TraceEvent]:
    for process, name in _PROCESSES.items():
        yield {"ph": "M", "name": "process_name", "pid": process, "args": {"name": name}}
    for row, told in enumerate(story.rows.rows):
        yield {"ph": "M", "name": "thread_name", "pid": _RUN, "tid": row + 1, "args": {"name": told.name}}
        yield {"ph": "M", "name": "thread_sort_index", "pid": _RUN, "tid": row + 1, "args": {"sort_index": row}}


def _slice(name: str, track: int, first: int, last: int, **args: Any) -> TraceEvent:
    return {"ph": "X", "name": name, "pid": _RUN, "tid": track + 1, "ts": first, "dur": last - first + 1, "args": args}


def _steps(story: Story) -> Iterator[TraceEvent]:
    for step in story.steps.steps:
        args: dict[str, Any] = {"line": story.line_of(step.first), "after": story.names.state(step.object, step.after)}
        if step.state:
            args |= {"state": story.names.state(step.object, step.state), "row": step.handler}
        if step.said:
            args["said"] = ", ".join(step.said)
        if step.cut:
            args["cut"] = True
        name = "start" if step.label < 0 else story.words.labels[step.label]
        yield _slice(name, step.row, step.first, step.last, **args)


def _stimuli(story: Story) -> Iterator[TraceEvent]:
    for stimulus in story.steps.stimuli:
        line = story.stimulus_of(story.rows.rows[stimulus.row], story.record_at(stimulus.first))
        yield _slice(line, stimulus.row, stimulus.first, stimulus.last, line=story.line_of(stimulus.first))


def _marks(story: Story) -> Iterator[TraceEvent]:
    for index, word in story.steps.marks:
        _, words = story.in_words(index)
        yield {"ph": "i", "name": word, "pid": _RUN, "tid": story.row_of(index) + 1, "ts": index, "s": "t", "args": {"says": words}}


def _flows(story: Story) -> Iterator[TraceEvent]:
    for number, (_, post, take, kind) in enumerate(story.words.arrows, 1):
        flow = {"name": _FLOWS[kind], "cat": "event", "id": number, "pid": _RUN}
        yield flow | {"ph": "s", "tid": story.row_of(post) + 1, "ts": post}
        yield flow | {"ph": "f", "bp": "e", "tid": story.row_of(take) + 1, "ts": take}


def _counters(story: Story) -> Iterator[TraceEvent]:
    for entry in story.system.objects:
        yield {"ph": "C", "name": entry.name, "pid": _QUEUES, "ts": 0, "args": {"entries": 0}}
        for index, length in story.words.lengths[entry.priority]:
            yield {"ph": "C", "name": entry.name, "pid": _QUEUES, "ts": index, "args": {"entries": length}}
    for number, pool in enumerate(story.system.pools, 1):
        yield {"ph": "C", "name": f"pool {number}", "pid": _POOLS, "ts": 0, "args": {"free": pool.blocks}}
        for index, free in story.words.free[number]:
            yield {"ph": "C", "name": f"pool {number}", "pid": _POOLS, "ts": index, "args": {"free": free}}
