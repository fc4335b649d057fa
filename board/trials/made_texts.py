"""Random actions and expressions, within what docs/FORMATS.md allows."""

from dataclasses import dataclass, field
from random import Random

MOST_TEXT, MOST_ACTIONS = 200, 16
_SMALL = (0, 1, 1, 2, 3, 5, 7, 10)
_ENDS = (127, 128, 255, 256, 32767, 32768, 65535, 65536, 2**31 - 1, 2**31, 2**32 - 1, 2**62, 2**63 - 2, 2**63 - 1)
_BINARY = ("+", "-", "*", "/", "%", "==", "!=", "<", "<=", ">", ">=", "&&", "||")


@dataclass(frozen=True)
class Signal:
    """A signal: static, or of a pool with so many parameters."""

    name: str
    params: int
    is_static: bool


@dataclass
class Vocabulary:
    """What the texts of a chart may name, how likely each action is, and how likely a refusal is asked for in the place of an assertion."""

    objects: list[str]
    signals: list[Signal]
    variables: list[str]
    timers: list[str]
    weights: dict[str, int]
    care: float
    wide: float
    room: int
    params: int = 0
    is_row: bool = False
    ticks: list[str] = field(default_factory=list)


class Texts:
    """Makes texts of actions and expressions."""

    def __init__(self, random: Random):
        self._random = random

    def actions(self, words: Vocabulary, most: int) -> list[str]:
        """A list of actions; those that have no room in a text are left out."""
        found: list[str] = []
        for _ in range(self._random.randint(0, most)):
            found += self._armed(words) if self._random.random() < 0.1 and words.timers else [self._action(words)]
        return [text for text in found if len(text) <= MOST_TEXT][:MOST_ACTIONS]

    def guard(self, words: Vocabulary) -> str:
        text = self.expression(words, 2)
        return text if len(text) <= MOST_TEXT else "ok"

    def expression(self, words: Vocabulary, depth: int) -> str:
        random = self._random
        if depth == 0 or random.random() < 0.35:
            return self._atom(words)
        if random.random() < 0.2:
            return f"{random.choice('-!')}{self._closed(words, depth - 1)}"
        operator = random.choice(_BINARY)
        if random.random() < 0.3 and operator in "+-*/%":
            return f"{self._atom(words)} {operator} {self._atom(words)} {random.choice('+-*/%')} {self._closed(words, depth - 1)}"
        return f"{self._closed(words, depth - 1)} {operator} {self._closed(words, depth - 1)}"

    def number(self, wide: float) -> int:
        return self._random.choice(_ENDS if self._random.random() < wide else _SMALL)

    def _closed(self, words: Vocabulary, depth: int) -> str:
        text = self.expression(words, depth)
        return text if text.replace("_", "").isalnum() else f"({text})"

    def _atom(self, words: Vocabulary) -> str:
        names = [*words.variables, *words.variables, "ok", "me", *(f"p{place}" for place in range(1, words.params + 1))]
        if self._random.random() < 0.55:
            return self._random.choice(names)
        number = str(self.number(words.wide))
        return f"(-{number})" if self._random.random() < 0.15 else number

    def _armed(self, words: Vocabulary) -> list[str]:
        """A time event that is disarmed before it is armed."""
        timer = self._random.choice(words.timers)
        return [f"disarm {timer}", f"arm {timer}({self._random.randint(1, 3)}, {self._random.randint(0, 2)})"]

    def _action(self, words: Vocabulary) -> str:
        if words.weights.get("locked", 0) and self._random.random() < words.weights["locked"] / 20:
            inner = "; ".join(self._plain(words) for _ in range(self._random.randint(1, 3)))
            return f"locked {self._random.randint(1, 32)} [{inner}]"
        return self._plain(words)

    def _plain(self, words: Vocabulary) -> str:
        random = self._random
        allowed = {word: weight for word, weight in words.weights.items() if word != "locked" and self._may(word, words)}
        word = random.choices(list(allowed), list(allowed.values()))[0]
        match word:
            case "set":
                return f"{random.choice(words.variables)} = {self.expression(words, 3)}"
            case "say":
                return f"say {self.expression(words, 3)}"
            case "post":
                signal = random.choice(words.signals)
                return f"post {self._object(words)} {self._event(signal, words)}{self._margin(words)}{self._reserve(signal, words)}"
            case "lifo" | "publish":
                signal = random.choice(words.signals)
                return f"{word} {self._event(signal, words)}{self._reserve(signal, words)}"
            case "forward":
                return f"forward {self._object(words)}{self._margin(words)}"
            case "subscribe" | "unsubscribe":
                return f"{word} {random.choice(words.signals).name}"
            case "arm":
                return f"arm {random.choice(words.timers)}({self._ticks(words)}, {random.choice(('0', '0', '1', '2', 'ok'))})"
            case "rearm":
                return f"rearm {random.choice(words.timers)}({self._ticks(words)})"
            case "disarm":
                return f"disarm {random.choice(words.timers)}"
        return word

    def _may(self, word: str, words: Vocabulary) -> bool:
        if word in ("forward", "defer") and not words.is_row:
            return False
        if word in ("arm", "rearm", "disarm") and not words.timers:
            return False
        return word != "set" or bool(words.variables)

    def _object(self, words: Vocabulary) -> str:
        return "me" if self._random.random() < 0.25 else self._random.choice(words.objects)

    def _event(self, signal: Signal, words: Vocabulary) -> str:
        if not signal.params:
            return signal.name
        return f"{signal.name}({', '.join(self.expression(words, 1) for _ in range(signal.params))})"

    def _margin(self, words: Vocabulary) -> str:
        return f" margin {self._random.randint(0, words.room)}" if self._random.random() < words.care else ""

    def _reserve(self, signal: Signal, words: Vocabulary) -> str:
        if signal.is_static or self._random.random() >= words.care:
            return ""
        return f" reserve {self._random.randint(0, 2)}"

    def _ticks(self, words: Vocabulary) -> str:
        if self._random.random() < words.care:
            return str(self._random.randint(1, 4))
        return self._random.choice(("0", "65535", "65536", "-1", "1", "2", self.expression(words, 1)))
