"""Rings of objects that post to the next one, under `port` and `wait`, beside the peer with mutexes."""

from .calls import Programs, work_folder
from .figures import Figures
from .runs import Race
from .workloads import countdown, ring

KERNELS = ("port", "wait")
#: How many objects the rings have, the posts that all of a ring's objects make, and how many events go round from each.
OBJECTS, POSTS, EVENTS = (2, 4), 50_000, 4
#: A ring in which one event goes round, and how often it is taken.
LONG, TAKEN = 32, 8_001
NAMES = tuple(str(objects) for objects in (*OBJECTS, LONG))


def tell_ring(race: Race, objects: int, posts: int, tries: int, figures: Figures) -> None:
    """The figures of a ring whose objects make so many posts in all."""
    work = ring(objects, posts // objects, EVENTS)
    found = race.measure(work, KERNELS, tries)
    made = posts // objects * objects
    for kernel in KERNELS:
        now = found[f"{kernel} now"]
        figures.begin(f"a ring of {objects} objects, {kernel}, {made:,} posts")
        figures.tell("posts a second", made / now.clock, f"{now.clock:.2f} s, {now.processors / made * 1e6:.2f} microseconds of processors a post")
        if "peer" in found:
            figures.ask("times as many as the peer's", found["peer"].clock / now.clock, least=0.8)
            figures.tell("processor time, times the peer's", now.processors / found["peer"].processors)
        if f"{kernel} before" in found:
            figures.tell("times as many as the program's from before", found[f"{kernel} before"].clock / now.clock)
        if counted := race.threads.get(kernel):
            figures.ask(f"threads made in all, times the {counted.lanes} lanes", counted.made / counted.lanes, most=3)
    if "peer" in found:
        figures.begin(f"a ring of {objects} objects, the peer")
        figures.tell("posts a second", made / found["peer"].clock)


def tell_long(race: Race, tries: int, figures: Figures) -> None:
    """The figures of the ring in which one event goes round."""
    work = countdown(LONG, TAKEN)
    found = race.measure(work, KERNELS, tries)
    for kernel in KERNELS:
        now = found[f"{kernel} now"]
        figures.begin(f"a ring of {LONG} objects, {kernel}, {TAKEN:,} events")
        figures.ask("seconds", now.clock, most=1 if kernel == "port" else None)
        figures.tell("seconds of processors", now.processors)
        if f"{kernel} before" in found:
            figures.tell("times as long as the program from before", now.clock / found[f"{kernel} before"].clock)
        if counted := race.threads.get(kernel):
            figures.ask(f"threads made in all, times the {counted.lanes} lanes", counted.made / counted.lanes, most=3)


def tell_rings(programs: Programs, names: list[str], tries: int, posts: int, figures: Figures) -> None:
    """The figures of the rings that are named by their count of objects."""
    with work_folder() as folder:
        race = Race.begin(programs, folder)
        for name in names:
            if int(name) == LONG:
                tell_long(race, tries, figures)
            else:
                tell_ring(race, int(name), posts, tries, figures)
