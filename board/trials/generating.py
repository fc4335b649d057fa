"""Random systems with stimuli. Each number gives one, the same each time; its last digit says what the system is mostly about."""

from random import Random
from typing import NamedTuple

from .made_charts import Charts
from .made_texts import Signal, Texts, Vocabulary

_MOST_TIMERS = 64
_COMMON = {"set": 6, "say": 4, "post": 6, "lifo": 2, "forward": 2, "publish": 2, "defer": 2, "recall": 2, "flush": 1, "subscribe": 2,
           "unsubscribe": 1, "arm": 1, "rearm": 1, "disarm": 1, "locked": 2}


class Theme(NamedTuple):
    """What a system is mostly about: weights of actions beside the common ones, and what is likely."""

    name: str
    more: dict[str, int] = {}
    care: float = 0.97
    wide: float = 0.05
    objects: tuple[int, int] = (1, 5)
    blocks: tuple[int, int] = (2, 8)
    ring: tuple[int, int] = (1, 6)
    room: int = 2
    is_deep: bool = False


THEMES = (
    Theme("all"),
    Theme("32 objects", objects=(32, 32), more={"set": 3, "publish": 6, "subscribe": 6}),
    Theme("ends of 64 bits", more={"set": 20, "say": 20}, wide=0.7),
    Theme("queues at their margins", more={"post": 20, "lifo": 6, "forward": 10}, ring=(0, 3), room=4),
    Theme("pools at their reserves", more={"post": 12, "publish": 8}, blocks=(1, 3)),
    Theme("deferral", more={"defer": 12, "recall": 8, "flush": 3}, care=1.0),
    Theme("publications below ceilings", more={"publish": 10, "subscribe": 10, "unsubscribe": 4, "locked": 12}, objects=(3, 8)),
    Theme("time events", more={"arm": 3, "rearm": 6, "disarm": 6}),
    Theme("deep states", is_deep=True),
    Theme("assertions", care=0.7, ring=(0, 2), blocks=(1, 3)),
)


class Size(NamedTuple):
    """How large systems are: of objects, where it isn't the theme's, of the states of a chart, of sources and of the stimuli of each."""

    objects: tuple[int, int] | None = None
    states: int = 9
    sources: int = 4
    stimuli: tuple[int, int] = (2, 14)


#: Of systems all of whose orders can be gone through.
SMALL = Size((2, 3), 3, 3, (1, 4))


class Made(NamedTuple):
    """A system's file, its stimuli and a budget."""

    number: int
    system: str
    stimuli: str
    budget: int


def make(number: int, size: Size = Size()) -> Made:
    return _Maker(number, size).made()


class _Maker:
    def __init__(self, number: int, size: Size):
        self._number, self._size = number, size
        self._random = Random(number * 7919 + 17)
        self._theme = THEMES[number % len(THEMES)]
        self._texts = Texts(self._random)

    def _between(self, limits: tuple[int, int]) -> int:
        return self._random.randint(*limits)

    def made(self) -> Made:
        random = self._random
        pools = self._pools()
        signals = self._signals(pools[-1][0] if pools else None)
        objects = [f"o{place}" for place in range(1, self._between(self._size.objects or self._theme.objects) + 1)]
        charts = [f"c{place}" for place in range(1, random.randint(1, min(4, len(objects))) + 1)]
        lines = ["qp = 1"]
        for size, blocks in pools:
            lines += ["[[pool]]", f"size = {size}", f"blocks = {blocks}"]
        for signal in signals:
            lines += ["[[signal]]", f'name = "{signal.name}"', "static = true" if signal.is_static else f"params = {signal.params}"]
        variables = {}
        for chart in charts:
            words = self._words(objects, signals)
            variables[chart] = words.variables
            timed = [signal for signal in signals if signal.is_static]
            lines += Charts(random, self._texts).lines(chart, words, random.randint(1, self._size.states), self._theme.is_deep, timed)
        lines += self._objects(objects, charts, variables)
        budget = random.choice((3, 20, 60)) if len(objects) < 10 else random.choice((2, 5))
        return Made(self._number, "\n".join([*lines, ""]), self._stimuli(objects, signals), budget)

    def _pools(self) -> list[tuple[int, int]]:
        sizes = sorted(self._random.sample(range(9), self._random.choice((0, 1, 1, 2, 3))))
        return [(size, 32 if self._random.random() < 0.1 else self._between(self._theme.blocks)) for size in sizes]

    def _signals(self, largest: int | None) -> list[Signal]:
        count = self._random.randint(2, 8)
        found = [Signal("S1", 0, True)]
        for place in range(2, count + 1):
            is_static = largest is None or self._random.random() < 0.35
            found.append(Signal(f"S{place}", 0 if is_static else self._random.randint(0, min(largest or 0, 4)), is_static))
        return found

    def _words(self, objects: list[str], signals: list[Signal]) -> Vocabulary:
        theme, random = self._theme, self._random
        most = _MOST_TIMERS // len(objects)
        weights = {word: _COMMON[word] + theme.more.get(word, 0) for word in _COMMON}
        return Vocabulary(
            objects, signals, [f"v{place}" for place in range(random.randint(0, 4))],
            [f"t{place}" for place in range(random.randint(0, min(3, most)))], weights, theme.care, theme.wide, theme.room,
        )

    def _objects(self, objects: list[str], charts: list[str], variables: dict[str, list[str]]) -> list[str]:
        random = self._random
        lines: list[str] = []
        priorities = random.sample(range(1, 33), len(objects))
        for place, (name, priority) in enumerate(zip(objects, priorities)):
            chart = charts[place] if place < len(charts) else random.choice(charts)
            lines += ["[[object]]", f'name = "{name}"', f'chart = "{chart}"', f"priority = {priority}"]
            if random.random() < 0.3:
                lines.append(f"threshold = {random.randint(priority, 32)}")
            lines += [f"queue = {self._between(self._theme.ring)}", f"defer = {random.choice((0, 1, 2, 3))}"]
            if variables[chart] and random.random() < 0.4:
                lines.append(f"vars = {{ {random.choice(variables[chart])} = {self._texts.number(self._theme.wide)} }}")
        return lines

    def _stimuli(self, objects: list[str], signals: list[Signal]) -> str:
        lines: list[str] = []
        for source in range(1, self._random.randint(1, self._size.sources) + 1):
            lines.append(f"source {source}")
            lines += [self._stimulus(objects, signals) for _ in range(self._between(self._size.stimuli))]
        return "\n".join([*lines, ""])

    def _stimulus(self, objects: list[str], signals: list[Signal]) -> str:
        random = self._random
        word = random.choices(("post", "publish", "tick", "settle"), (8, 3, 4, 3))[0]
        if word == "settle":
            return word
        if word == "tick":
            return f"tick {random.choice((0, 0, 1, 2))}"
        signal = random.choice(signals)
        values = ",".join(str(random.choice((0, 1, 3, 2**63 - 1, 2**63, 2**64 - 1))) for _ in range(signal.params))
        event = f"{signal.name}({values})" if signal.params else signal.name
        reserve = "" if signal.is_static or random.random() >= self._theme.care else f" reserve {random.randint(0, 1)}"
        if word == "publish":
            return f"publish {event}{reserve}"
        margin = f" margin {random.randint(0, self._theme.room)}" if random.random() < self._theme.care else ""
        return f"post {random.choice(objects)} {event}{margin}{reserve}"
