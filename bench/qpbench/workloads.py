"""The systems that are measured, with their stimuli and budgets."""

from collections.abc import Callable, Iterable
from pathlib import Path
from typing import NamedTuple

SIGNALS = """qp = 1
pool = [{ size = 1, blocks = 32 }]
signal = [{ name = "GO", static = true }, { name = "N", params = 1 }, { name = "T", static = true }]
"""
#: The same with one signal, as the peers with threads have it.
SIGNAL = """qp = 1
pool = [{ size = 1, blocks = 32 }]
signal = [{ name = "N", params = 1 }]
"""
#: The budget of a run whose objects end by themselves: the largest.
FREE = 1_000_000
GO = "source 1\npost o GO\n"


class Workload(NamedTuple):
    """A system with its stimuli, the budget, the status that a run ends with, and the words by which a peer makes the same run."""

    system: str
    stimuli: str
    budget: int = FREE
    status: int = 0
    peer: tuple[str, ...] = ()

    def write(self, folder: Path) -> None:
        """Writes its files."""
        (folder / "system").write_text(self.system)
        (folder / "stimuli").write_text(self.stimuli)

    def run(self, program: Path, *words: str) -> list[str | Path]:
        """The words of a run of its files."""
        return [program, "run", "--budget", str(self.budget), *words, "system", "stimuli"]


def chart(name: str, init: str, states: Iterable[str], more: str = "") -> str:
    return f"[[chart]]\nname = \"{name}\"\ninit = \"{init}\"\n{more}" + "".join(f"[[chart.state]]\n{state}" for state in states)


def object_of(name: str, of: str, priority: int, queue: int) -> str:
    return f"[[object]]\nname = \"{name}\"\nchart = \"{of}\"\npriority = {priority}\nqueue = {queue}\n"


def flat(records: int) -> Workload:
    """An object that posts to itself, step after step: 7 records a step."""
    steps = max(1, (records - 100) // 7)
    system = SIGNALS + chart("c", "s", ['name = "s"\nrow = [{ on = "GO", do = ["post me GO"] }]\n']) + object_of("o", "c", 1, 1)
    return Workload(system, GO, steps, 4, ("flat", str(steps)))


def publish(records: int) -> Workload:
    """An object whose steps publish a pooled event to 16 others: 327 records a step."""
    steps = max(1, (records - 100) // 327)
    system = SIGNALS + chart("c", "s", ['name = "s"\nrow = [{ on = "GO", do = ["publish N(7)", "post me GO"] }]\n'])
    system += chart("r", "s", ['name = "s"\nrow = [{ on = "N" }]\n'], 'init_do = ["subscribe N"]\n')
    system += object_of("o", "c", 1, 1) + "".join(object_of(f"r{p}", "r", p, 1) for p in range(2, 18))
    return Workload(system, GO, steps, 4, ("publish", str(steps)))


def deep(records: int) -> Workload:
    """A chart of six levels with guards, entry and exit actions: 21 records a step."""
    steps = max(1, (records - 100) // 21)
    counts = 'entry = ["n = n + 1"]\nexit = ["n = n - 1"]\n'
    passes = '{ on = "GO", when = "n > 1000", to = "a" }'
    states = [f'name = "a"\n{counts}row = [{passes}, {{ on = "GO", do = ["post me GO"], to = "k" }}]\n']
    states += [f'name = "{name}"\nparent = "{parent}"\n{counts}row = [{passes}]\n' for parent, name in zip("abcde", "bcdef")]
    states += [f'name = "k"\n{counts}row = [{{ on = "GO", when = "n == 0" }}, {{ on = "GO", do = ["post me GO"], to = "f" }}]\n']
    return Workload(SIGNALS + chart("c", "f", states, "vars = { n = 0 }\n") + object_of("o", "c", 1, 1), GO, steps, 4, ("deep", str(steps)))


def timers(records: int) -> Workload:
    """64 time events of one rate, all of which fire at each tick: some 690 records a tick."""
    ticks = max(1, (records - 100) // 695)
    each = range(1, 9)
    more = "timer = [" + ", ".join(f'{{ name = "T{k}", signal = "T", rate = 0 }}' for k in each) + "]\n"
    more += "init_do = [" + ", ".join(f'"arm T{k}(1, 1)"' for k in each) + "]\n"
    system = SIGNALS + chart("c", "s", ['name = "s"\nrow = [{ on = "T" }]\n'], more) + "".join(object_of(f"o{p}", "c", p, 15) for p in each)
    return Workload(system, "source 1\n" + "tick 0\nsettle\n" * ticks, FREE, 0, ("timers", str(ticks)))


#: Those of one lane, whose runs under `sim` have at most a million records.
WORKLOADS: dict[str, Callable[[int], Workload]] = {"flat": flat, "publish": publish, "deep": deep, "timers": timers}


def sixteen(records: int) -> Workload:
    """16 objects that post to themselves, for `port`, whose lanes have room for millions of records: 8 a step in each lane, of which four are
    short, so that four million of them are less than the 64 MiB that a file may have."""
    steps = max(1, records // 128)
    system = SIGNALS
    for p in range(1, 17):
        states = []
        for name, other in (("a", "b"), ("b", "a")):
            row = f'row = [{{ on = "GO", when = "n < {steps}", do = ["n = n + 1", "post me GO"], to = "{other}1" }}, {{ on = "GO" }}]\n'
            states += [f'name = "{name}"\n', f'name = "{name}1"\nparent = "{name}"\n' + row]
        system += chart(f"c{p}", "a1", states, "vars = { n = 0 }\n") + object_of(f"o{p}", f"c{p}", p, 1)
    return Workload(system, "source 1\n" + "".join(f"post o{p} GO\n" for p in range(1, 17)))


def ring(objects: int, posts: int, events: int) -> Workload:
    """Objects that post to the next one, so many times each, in blocks; so many events go round from each."""
    system = SIGNAL
    for p in range(1, objects + 1):
        row = f'row = [{{ on = "N", when = "n < {posts}", do = ["n = n + 1", "post o{p % objects + 1} N(n)"] }}, {{ on = "N" }}]\n'
        system += chart(f"c{p}", "s", ['name = "s"\n' + row], "vars = { n = 0 }\n") + object_of(f"o{p}", f"c{p}", p, 31)
    return Workload(system, "source 1\n" + "".join(f"post o{p} N(0)\n" * events for p in range(1, objects + 1)),
                    peer=("ring", str(objects), str(posts), str(events)))


def countdown(objects: int, events: int) -> Workload:
    """One event that goes round a ring of objects, until so many have been taken."""
    system = SIGNALS
    for p in range(1, objects + 1):
        row = f'row = [{{ on = "N", when = "p1 > 0", do = ["post o{p % objects + 1} N(p1 - 1)"] }}, {{ on = "N" }}]\n'
        system += chart(f"c{p}", "s", ['name = "s"\n' + row]) + object_of(f"o{p}", f"c{p}", p, 3)
    return Workload(system, f"source 1\npost o1 N({events - 1})\n")


def adding(sources: int, posts: int) -> Workload:
    """Sources that post so many numbers each to one object, and settle behind each fourth."""
    system = SIGNAL + chart("sum", "wait", ['name = "wait"\nrow = [{ on = "N", do = ["total = total + p1"] }]\n'], "vars = { total = 0 }\n")
    lines = [f"post sum N({k})\n" + ("settle\n" if k % 4 == 0 else "") for k in range(1, posts + 1)]
    return Workload(system + object_of("sum", "sum", 1, 31), "".join(f"source {n}\n" + "".join(lines) for n in range(1, sources + 1)),
                    peer=("sum", str(sources), str(posts)))
