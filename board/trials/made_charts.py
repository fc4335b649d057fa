"""Random charts, as the lines of a system's file."""

from collections.abc import Sequence
from dataclasses import replace
from random import Random

from .made_texts import Signal, Texts, Vocabulary

DEEPEST = 6


class Charts:
    """Makes charts."""

    def __init__(self, random: Random, texts: Texts):
        self._random, self._texts = random, texts

    def lines(self, name: str, words: Vocabulary, states: int, is_deep: bool, timed: Sequence[Signal]) -> list[str]:
        random = self._random
        names = [f"s{place}" for place in range(1, states + 1)]
        parents = self._parents(names, is_deep)
        lines = ["[[chart]]", f'name = "{name}"', f'init = "{random.choice(names)}"']
        lines += self._list("init_do", words, 3)
        if words.variables:
            lines.append("vars = { " + ", ".join(f"{variable} = {self._first(words)}" for variable in words.variables) + " }")
        for timer in words.timers:
            lines += ["[[chart.timer]]", f'name = "{timer}"', f'signal = "{random.choice(timed).name}"', f"rate = {random.randint(0, 1)}"]
        for place in range(states):
            lines += self._state(names, parents, place, words)
        return lines

    def _first(self, words: Vocabulary) -> int:
        value = self._texts.number(words.wide)
        return self._random.choice((value, value, -value, -value - 1))

    def _parents(self, names: list[str], is_deep: bool) -> list[int | None]:
        """The place of each state's parent: one of those before it, whose path has room for one more."""
        parents: list[int | None] = []
        depths: list[int] = []
        for place in range(len(names)):
            known = [other for other in range(place) if depths[other] < DEEPEST]
            has_one = bool(known) and self._random.random() < (0.9 if is_deep else 0.45)
            parent = (known[-1] if is_deep and self._random.random() < 0.7 else self._random.choice(known)) if has_one else None
            parents.append(parent)
            depths.append(1 if parent is None else depths[parent] + 1)
        return parents

    def _below(self, parents: list[int | None], place: int) -> list[int]:
        found = []
        for other in range(len(parents)):
            above = parents[other]
            while above is not None and above != place:
                above = parents[above]
            if above == place:
                found.append(other)
        return found

    def _state(self, names: list[str], parents: list[int | None], place: int, words: Vocabulary) -> list[str]:
        random, parent = self._random, parents[place]
        lines = ["[[chart.state]]", f'name = "{names[place]}"']
        if parent is not None:
            lines.append(f'parent = "{names[parent]}"')
        lines += self._list("entry", words, 2) + self._list("exit", words, 2)
        if (below := self._below(parents, place)) and random.random() < 0.7:
            lines.append(f'init = "{names[random.choice(below)]}"')
            lines += self._list("init_do", words, 2)
        return lines + self._rows(names, words)

    def _rows(self, names: list[str], words: Vocabulary) -> list[str]:
        random = self._random
        lines: list[str] = []
        closed: set[str] = set()
        for _ in range(random.randint(0, 5)):
            signal = random.choice(words.signals)
            if signal.name in closed:
                continue
            own = replace(words, params=signal.params, is_row=True)
            lines += ["[[chart.state.row]]", f'on = "{signal.name}"']
            if random.random() < 0.4:
                lines.append(f'when = "{self._texts.guard(own)}"')
            else:
                closed.add(signal.name)
            lines += self._list("do", own, 4)
            if random.random() < 0.5:
                lines.append(f'to = "{random.choice(names)}"')
        return lines

    def _list(self, key: str, words: Vocabulary, most: int) -> list[str]:
        texts = self._texts.actions(words, most)
        return [f"{key} = [{', '.join(repr(text) for text in texts)}]".replace("'", '"')] if texts else []
