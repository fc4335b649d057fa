"""The page: its parts, style and script put into one file that needs no other."""

import json
from html import escape
from pathlib import Path
from string import Template

from .chart_layout import lay_out
from .chart_svg import chart_svg
from .coverage import Coverage
from .journal import KERNELS
from .place import record_of
from .story import Story
from .system_parts import Chart
from .verdict import Verdict, verdict_words

_ASSETS = Path(__file__).resolve().parent / "assets"
#: The script's parts in order: a part uses those before it while it is read, and all others afterwards.
_SCRIPTS = (
    "data.js", "told.js", "view.js", "rows.js", "line.js", "panels.js", "legend.js", "choose.js", "keys.js", "pointer.js",
    "main.js",
)
_ENDS = {0: "ended quietly", 3: "ended by an assertion", 4: "ended by the budget or a full lane"}
#: So many letters beside a state's name say at most who is in it.
_WHO = 24

_OBJECT_HEADS = (
    "Object", "Chart", "Priority", "Threshold", "Steps", "Longest queue", "Left in queue", "Still deferred", "Last state",
)
_POOL_HEADS = ("Pool", "Block size", "Blocks", "Fewest free", "Given", "Returned")


def page_of(story: Story, names: tuple[str, str, str], verdict: Verdict | None = None, opens_at: int | None = None) -> str:
    """The page of a run; `names` are those of the system's file, the stimuli's and the journal's. It opens at the record that is asked for, or
    at that of a verdict, or where the run was stopped, or else at its first stimulus."""
    system, journal = story.system, story.journal
    count = len(story.order.places)
    stop = story.stop()
    judged = record_of(verdict, story) if verdict else None
    if opens_at is None:
        opens_at = judged[0] if judged else stop if stop is not None else story.first_stimulus()
    facts = [
        f"kernel {KERNELS[journal.kernel]}", f"form {journal.form}", f"budget {journal.budget:,}",
        f"{count:,} record{'' if count == 1 else 's'}", f"{_ENDS[journal.status]} (end {journal.status})",
    ]
    return Template(_asset("page.html")).substitute(
        title=escape(Path(names[2]).name),
        files=escape(f"{Path(names[0]).name} under {Path(names[1]).name}"),
        facts="".join(f"<li>{escape(fact)}</li>" for fact in facts),
        stop=_stop(story, stop),
        notices="".join(f'<p class="notice" role="note">{notice}</p>' for notice in _notices(story, verdict, judged)),
        meaning=escape(story.order.meaning),
        charts=_charts(story),
        objects=_table("Objects", _OBJECT_HEADS, story.object_lines()),
        pools=_table("Pools", _POOL_HEADS, story.pool_lines()) if system.pools else "",
        records="\n".join(f"{lane} {record.text}" for lane, record in story.records()),
        model=json.dumps(story.model(opens_at), separators=(",", ":")).replace("<", "\\u003c"),
        style=_asset("style.css"),
        script="\n".join(_asset(name) for name in _SCRIPTS),
    )


def _asset(name: str) -> str:
    return (_ASSETS / name).read_text(encoding="utf-8")


def _link(index: int) -> str:
    return f'<a href="#record={index + 1}">record {index + 1:,}</a>'


def _stop(story: Story, stop: int | None) -> str:
    """Who stopped the run and why, with the record."""
    if stop is None:
        return ""
    who, words = story.in_words(stop)
    action = story.asserting_action(stop)
    doing = f", doing <code>{escape(action)}</code>" if action else ""
    return f'<p class="stop"><b>{escape(who)}</b> {escape(words)}{doing}, at {_link(stop)}</p>'


def _notices(story: Story, verdict: Verdict | None, judged: tuple[int, str] | None) -> list[str]:
    says = "<code>qp check</code> says whether the journal is lawful."
    notices = []
    if verdict:
        place = ""
        if judged:
            index, why = judged
            place = f" Look first at {_link(index)}: {escape(' '.join(story.in_words(index)))}.{f' {escape(why)}.' if why else ''}"
        notices.append(
            f"<b>Not lawful.</b> <code>{escape(verdict.text)}</code>: {escape(verdict_words(verdict, story.names))}.{place}"
        )
    if foreign := story.foreign():
        notices.append(
            f"The system doesn’t have {escape(foreign.what)}, which {_link(foreign.place)} names. "
            f"Is this the journal of another system? {says}"
        )
    if against := story.order.against:
        records = "1 record" if len(against) == 1 else f"{len(against):,} records"
        notices.append(f"The numbers of {records} don’t fit the order that is drawn, first at {_link(against[0])}. {says}")
    return notices


def _charts(story: Story) -> str:
    coverage = Coverage(story.system)
    coverage.add(story.journal)
    return "\n".join(_chart(place, chart, story, coverage) for place, chart in enumerate(story.system.charts.values()))


def _chart(place: int, chart: Chart, story: Story, coverage: Coverage) -> str:
    users = [entry.name for entry in reversed(story.system.objects) if entry.chart is chart]
    room = min(_WHO, len(", ".join(users)))
    facts = []
    if users:
        facts.append(f"objects {', '.join(users)}")
    if chart.vars:
        facts.append(", ".join(f"{name} = {value}" for name, value in chart.vars.items()))
    facts += [f"{timer.name} posts {timer.signal.name}, rate {timer.rate}" for timer in chart.timers]
    return (
        f'<section class="chart-box" id="chart-{place}" data-chart="{place}" aria-label="Chart {escape(chart.name)}">'
        f'<h3>{escape(chart.name)}</h3><ul class="facts">{"".join(f"<li>{escape(fact)}</li>" for fact in facts)}</ul>'
        f'<div class="chart-scroll" tabindex="0">{chart_svg(lay_out(chart, room, coverage), chart.name)}</div></section>'
    )


def _table(caption: str, heads: tuple[str, ...], lines: list[list[str]]) -> str:
    head = "".join(f'<th scope="col">{name}</th>' for name in heads)
    body = "".join(
        f'<tr><th scope="row" data-head="{heads[0]}">{escape(line[0])}</th>'
        + "".join(f'<td data-head="{name}">{escape(cell)}</td>' for name, cell in zip(heads[1:], line[1:]))
        + "</tr>"
        for line in lines
    )
    return (
        f'<div class="table-scroll" tabindex="0"><table><caption>{escape(caption)}</caption>'
        f"<thead><tr>{head}</tr></thead><tbody>{body}</tbody></table></div>"
    )
