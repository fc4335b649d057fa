"""The rows of the time line, and in which of them a record stands."""

from dataclasses import dataclass

from .journal import PORT, Journal
from .system_parts import Object, System


@dataclass(frozen=True)
class LineRow:
    """A row of the kind `object`, `kernel`, `source` or `lane`; `source` is the number of a source, from 1."""

    kind: str
    name: str
    object: Object | None = None
    lane: int | None = None
    source: int = 0


class Rows:
    """Rows from the top: objects from the highest priority down, the kernel, sources.

    Under `port` lane 0 has a row only where it isn't empty, which no lawful journal has.
    """

    def __init__(self, journal: Journal, system: System):
        self._is_port = journal.kernel == PORT
        self._objects = system.objects
        self.rows = [LineRow("object", entry.name, entry) for entry in reversed(system.objects)]
        if not self._is_port:
            self.rows.append(LineRow("kernel", "kernel", lane=0))
        elif journal.lanes and journal.lanes[0]:
            self.rows.append(LineRow("lane", "lane 0", lane=0))
        first_source = len(system.objects) + 1 if self._is_port else 1
        for lane in range(first_source, len(journal.lanes)):
            number = lane - first_source + 1
            self.rows.append(LineRow("source", f"source {number}", lane=lane, source=number))
        self._of_object = {row.object.priority: place for place, row in enumerate(self.rows) if row.object}
        self._of_lane = {row.lane: place for place, row in enumerate(self.rows) if row.lane is not None}

    def row_of_object(self, priority: int) -> int | None:
        return self._of_object.get(priority)

    def row_of(self, lane: int, priority: int) -> int:
        """The row of a record of this lane that states this object."""
        if self._is_port and 1 <= lane <= len(self._objects):
            return self._of_object[self._objects[lane - 1].priority]
        if lane == 0 and not self._is_port:
            return self._of_object.get(priority, self._of_lane[0])
        return self._of_lane[lane]
