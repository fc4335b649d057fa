"""A trace with all that its records tell together."""

from qpviewer.system_parts import Object, Signal, System

from .blocks import Blocks
from .counting import Moments
from .queues import Queues, entries_of
from .records import LAST_OBJECT, Raw
from .timers import Timers


class Told:
    """A system, the numbered lanes of a trace, and their blocks, queues and time events."""

    def __init__(self, system: System, lanes: dict[int, list[Raw]], moments: Moments | None):
        self.system = system
        self.lanes = lanes
        #: Where there is one order.
        self.moments = moments
        self.objects: dict[int, Object] = {entry.priority: entry for entry in system.objects}
        self.signals: dict[int, Signal] = {signal.number: signal for signal in system.signals.values()}
        self.blocks = Blocks(lanes)
        self.entries = entries_of(lanes, self.blocks)
        self.queues = Queues(lanes, self.entries)
        self.timers = Timers(lanes)
        #: What a reader of the journal has to know beside it.
        self.notes: list[str] = []

    @property
    def sources(self) -> int:
        """How many sources there are: the highest number of one that left a record."""
        return max((who - LAST_OBJECT for who in self.lanes if who > LAST_OBJECT), default=0)

    def params_of(self, signal: int) -> int:
        return self.signals[signal].params if signal in self.signals else 0
