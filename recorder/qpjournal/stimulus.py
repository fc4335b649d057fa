"""The line of a stimulus, as `qp check` reads it (docs/FORMATS.md, section 3)."""

from qpviewer.faults import Fault
from qpviewer.system_parts import Signal

from .records import LAST_OBJECT, STIM_PUBLISH, STIM_TICK, Raw
from .told import Told

#: The largest margin, reserve and rate.
_MOST_ASKED, _MOST_RATE = 255, 3


class StimulusLines:
    """Writes the stimuli of one source. Raises `Fault` for one that no line can say."""

    def __init__(self, told: Told, who: int):
        self._told = told
        self._source = who - LAST_OBJECT
        self._count = 0

    def line(self, head: Raw, raws: list[Raw]) -> str:
        """The line of a stimulus by its first record and all."""
        self._count += 1
        if head.word == "settle":
            return "settle"
        call, *values = head.values
        if call == STIM_TICK:
            self._refuse_if(values[0] > _MOST_RATE, f"a tick of rate {values[0]}; rates are 0 to {_MOST_RATE}")
            return f"tick {values[0]}"
        if call == STIM_PUBLISH:
            number, reserve = values
            signal = self._signal(number)
            return " ".join(["publish", self._event(signal, raws), *self._reserve(signal, reserve)])
        priority, number, margin, reserve = values
        target, signal = self._told.objects.get(priority), self._signal(number)
        if target is None:
            raise self._fault(f"a post to object {priority}, which the system doesn't have")
        return " ".join(["post", target.name, self._event(signal, raws), *self._asked("margin", margin), *self._reserve(signal, reserve)])

    def _fault(self, words: str) -> Fault:
        return Fault("", f"source {self._source}, stimulus {self._count}: {words}")

    def _refuse_if(self, is_odd: bool, words: str) -> None:
        if is_odd:
            raise self._fault(words)

    def _signal(self, number: int) -> Signal:
        signal = self._told.signals.get(number)
        if signal is None:
            raise self._fault(f"signal {number}, which the system doesn't have")
        return signal

    def _event(self, signal: Signal, raws: list[Raw]) -> str:
        params = (0,) * signal.params
        for raw in raws:
            if raw.word == "new":
                params = self._told.blocks.of_new(raw.values[0], raw.number).params or params
        self._refuse_if(len(params) != signal.params, f"{signal.name} with {len(params)} parameters; the system gives it {signal.params}")
        self._refuse_if(any(param >= 2**64 for param in params), f"{signal.name} with a parameter beyond 64 bits")
        return f"{signal.name}({','.join(map(str, params))})" if params else signal.name

    def _reserve(self, signal: Signal, reserve: int) -> list[str]:
        self._refuse_if(signal.is_static and reserve != 0, f"{signal.name} is static, so QPR_NONE_ASKED has to stand for its reserve")
        return self._asked("reserve", reserve)

    def _asked(self, word: str, value: int) -> list[str]:
        """A margin or a reserve as a line has it; the record's number is one more, and 0 where none is asked."""
        self._refuse_if(value - 1 > _MOST_ASKED, f"a {word} of {value - 1}; the most is {_MOST_ASKED}")
        return [word, str(value - 1)] if value else []
