"""Interpreters with one wrong line: each is found by a run whose journal, line or status isn't that of `qp run`."""

import tempfile
from collections.abc import Iterator
from concurrent.futures import ThreadPoolExecutor
from functools import cache
from pathlib import Path
from typing import NamedTuple

from qpboard.building import BOARD
from qpboard.desk import KERNELS

from .desk_trial import Desk, Ran, difference, expected, found, made_files
from .generating import make
from .places import Files


class Wrong(NamedTuple):
    """A wrong line: what is wrong, a system whose run tells it, or its number, the line's part, and what stands in its place."""

    name: str
    system: int | Files
    right: str
    wrong: str


def _directed(name: str, variables: str, actions: str) -> Files:
    """A system of one object that does actions on GO."""
    return Files(name, f"""qp = 1
[[signal]]
name = "GO"
static = true
[[chart]]
name = "one"
init = "s"
vars = {{ {variables} }}
timer = [{{ name = "T", signal = "GO", rate = 0 }}]
[[chart.state]]
name = "s"
row = [{{ on = "GO", do = [{actions}] }}]
[[object]]
name = "one"
chart = "one"
priority = 1
queue = 1
defer = 1
""".encode(), b"source 1\npost one GO\n")


#: What random systems seldom do.
_DIVISION = _directed("the least number by -1", "least = -9223372036854775808, one = -1", '"say least / one", "say least % one"')
_FLUSH = _directed("a flush of one", "", '"defer", "flush", "say ok"')
_TICKS = _directed("65535 ticks", "", '"arm T(65535, 65535)", "say ok", "rearm T(65536)"')

WRONG = (
    Wrong("a post is granted at its margin", 13, "room - a->count <= (margin", "room - a->count < (margin"),
    Wrong("an event is made at its reserve", 14, "qpb_count(*free) <= (unsigned)reserve", "qpb_count(*free) < (unsigned)reserve"),
    Wrong("a last-in post needs two free entries", 3, "if (a->count == room)", "if (a->count + 1u >= room)"),
    Wrong("a last-in post takes the place of the first", 33, "qpb_within(a->head + room - 1u, room)", "a->head"),
    Wrong("a pool gives out its second free block", 14, "(uint8_t)qpb_lowest(*free)", "(uint8_t)qpb_lowest(*free & (*free - 1u) ? *free & (*free - 1u) : *free)"),
    Wrong("a refused post keeps its reference", 34, "    qpb_dec(e);\n    return 0;", "    return 0;"),
    Wrong("a step keeps its event", 20, "    qpb_dec(e);\n    if (QPB_KERNEL == QPB_QK) qpb_running",
          "    if (QPB_KERNEL == QPB_QK) qpb_running"),
    Wrong("a publication goes from the lowest up", 6, "(above = qpb_above(set)) != 0", "(above = set ? qpb_lowest(set) + 1u : 0) != 0"),
    Wrong("a ceiling is one too low", 76, "qpb_ceiling = (uint8_t)ceiling", "qpb_ceiling = (uint8_t)(ceiling - 1u)"),
    Wrong("a ceiling isn't lowered to none", 46, "if (QPB_KERNEL == QPB_QK) qpb_ceiling = former;", "if (former) qpb_ceiling = former;"),
    Wrong("a threshold counts as the priority", 136, "qpb_running = qpb_objects[o].threshold", "qpb_running = qpb_objects[o].prio"),
    Wrong("a step begins at the floor", 46, "QPB_PRIO(above - 1u) <= floor", "QPB_PRIO(above - 1u) < floor"),
    Wrong("no scheduling point stands within a publication", 86, "if (is_handler) qpb_point();", "(void)is_handler;"),
    Wrong("a time event fires a tick late", 7, "if (--qpb_counters[t].counter)", "if (qpb_counters[t].counter--)"),
    Wrong("a time event fires once", 87, "qpb_counters[t].counter = qpb_counters[t].interval;", "qpb_counters[t].counter = 0;"),
    Wrong("a time event takes no 65535 ticks", _TICKS, "QPB_MOST_TICKS = 65535", "QPB_MOST_TICKS = 65534"),
    Wrong("a transition to its own state leaves nothing", 38, "source == target ? states[source].parent : source", "source"),
    Wrong("initial transitions end behind the first", 18, "target; target = states[main].init)",
          "target; target = main == qpb_objects[o].chart->init ? 0 : states[main].init)"),
    Wrong("the outermost state isn't left", 8, "s != main; s = states[s].parent) {\n        QPB_TELL(QPR_EXIT",
          "s != main && states[s].parent != main; s = states[s].parent) {\n        QPB_TELL(QPR_EXIT"),
    Wrong("a guard isn't asked", 0, "|| qpb_do(o, rows[i].when, now))", "|| qpb_do(o, rows[i].when, now) || 1)"),
    Wrong("a deferred list has a place less", 15, "if (a->held == room)", "if (a->held + 1u >= room)"),
    Wrong("a recall keeps the list's reference", 275, "    qpb_before(o, e);\n    qpb_dec(e);", "    qpb_before(o, e);"),
    Wrong("a flush counts nothing", _FLUSH, "for (; qpb_actives[o].held; ++n)", "for (; qpb_actives[o].held;)"),
    Wrong("a subscriber joins twice", 46, "(*set >> o & 1u) == joins", "(*set >> o & 1u) == joins && !joins"),
    Wrong("the answer of a call is lost", 0, "qpb_actives[w->o].ok = qpb_call(w, op)", "(void)qpb_call(w, op)"),
    Wrong("numbers have no sign", 2, "w->at[bytes - 1] & 0x80u ? ~(qpb_uint)0 : 0", "0"),
    Wrong("values are compared without a sign", 2, "return a < b;", "return (qpb_uint)a < (qpb_uint)b;"),
    Wrong("a rest has its divisor's sign", 72, ": a % b; }", ": (a % b + b) % b; }"),
    Wrong("the least number is divided by -1 as C does", _DIVISION, "b == -1 ? QPB_VALUE(o, 0, -, a) : a / b", "((void)o, a / b)"),
)
def find_all(desk: Desk, folder: Path, processors: int) -> Iterator[tuple[str, bool]]:
    """For each wrong interpreter a line of how it was found, and whether it was."""
    with ThreadPoolExecutor(processors) as pool:
        yield from pool.map(lambda numbered: _find(desk, folder / f"wrong-{numbered[0]}", numbered[1]), enumerate(WRONG))


def _find(desk: Desk, folder: Path, wrong: Wrong) -> tuple[str, bool]:
    right = (BOARD / "qp_board.h").read_text()
    if right.count(wrong.right) != 1:
        return f"{wrong.name}: the line stands {right.count(wrong.right)} times in qp_board.h", False
    folder.mkdir()
    (folder / "qp_board.h").write_text(right.replace(wrong.right, wrong.wrong))
    mutant = desk.with_interpreter(folder)
    files = made_files(make(wrong.system)) if isinstance(wrong.system, int) else wrong.system
    with tempfile.TemporaryDirectory(dir=folder) as own:
        program = mutant.build(files, Path(own))
        for kernel in KERNELS:
            if told := difference(f"{files.name} under {kernel}", _expected(files, kernel), found(program, files, kernel)):
                return f"{wrong.name}: found by {told}", True
    return f"{wrong.name}: not found", False


@cache
def _expected(files: Files, kernel: str) -> Ran:
    with tempfile.TemporaryDirectory() as own:
        return expected(files, kernel, Path(own))
