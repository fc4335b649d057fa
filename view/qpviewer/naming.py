"""Names of a system's things by the numbers that a journal has for them."""

from collections.abc import Sequence

from .system_parts import System


class Names:
    """Names; a number that the system doesn't have is named by its number."""

    def __init__(self, system: System):
        self._signals = {signal.number: signal.name for signal in system.signals.values()}
        self._timers = {event.number: f"{event.owner.name}.{event.timer.name}" for event in system.time_events}
        self._objects = {entry.priority: entry for entry in system.objects}

    def object(self, priority: int) -> str:
        entry = self._objects.get(priority)
        return entry.name if entry else f"object {priority}"

    def can_defer(self, priority: int) -> bool:
        """Whether an object has a deferred list with room for an entry."""
        entry = self._objects.get(priority)
        return entry is None or entry.defer > 0

    def state(self, priority: int, number: int) -> str:
        """A state of an object's chart; a dash for none."""
        entry = self._objects.get(priority)
        if entry and 1 <= number <= len(entry.chart.states):
            return entry.chart.states[number - 1].name
        return f"state {number}" if number else "-"

    def signal(self, number: int) -> str:
        return self._signals.get(number, f"signal {number}")

    def event(self, signal: int, params: Sequence[int] = ()) -> str:
        """An event as `NAME(1, 2)`."""
        name = self.signal(signal)
        return f"{name}({', '.join(str(signed(param)) for param in params)})" if params else name

    def timer(self, number: int) -> str:
        return self._timers.get(number, f"time event {number}")


def signed(bits: int) -> int:
    """The signed value of 64 bits."""
    return bits - 2**64 if bits >= 2**63 else bits
