"""The least that was free in queues and pools, over any number of journals: QP's `getQueueMin` and `getPoolMin`."""

from .story import Story
from .system_parts import System

_HEADS = ("", "size", "least free", "most used")


class LowWater:
    """The least free entries of each queue and free blocks of each pool."""

    def __init__(self, system: System):
        self._system = system
        self._longest = {entry.priority: 0 for entry in system.objects}
        self._fewest = {number: pool.blocks for number, pool in enumerate(system.pools, 1)}

    def add(self, story: Story) -> None:
        """Takes a run of this system."""
        for priority in self._longest:
            self._longest[priority] = max(self._longest[priority], story.words.longest[priority])
        for number in self._fewest:
            self._fewest[number] = min(self._fewest[number], story.words.fewest[number])

    def lines(self) -> list[tuple[str, int, int]]:
        """Each queue and pool by its name, with its size and the least that was free. A queue of ring n has n + 1 places."""
        queues = [(f"queue {entry.name}", entry.queue + 1, self._longest[entry.priority]) for entry in reversed(self._system.objects)]
        pools = [(f"pool {number}", pool.blocks) for number, pool in enumerate(self._system.pools, 1)]
        return [(name, size, size - most) for name, size, most in queues] + [
            (name, blocks, self._fewest[number]) for number, (name, blocks) in enumerate(pools, 1)
        ]

    def text(self) -> str:
        """The table as text."""
        lines = [_HEADS, *((name, str(size), str(least), str(size - least)) for name, size, least in self.lines())]
        widest = max(len(line[0]) for line in lines)
        return "".join(f"{line[0]:<{widest}}  {line[1]:>4}  {line[2]:>10}  {line[3]:>9}\n" for line in lines)
