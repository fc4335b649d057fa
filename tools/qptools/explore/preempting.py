"""Lane 0 of `qk`: rows of looks, and the steps between them."""

from typing import TYPE_CHECKING

from .calls import Told
from .looks import floor_of
from .objects import Running
from .spot import ASSERTED, Draft, Kernel

if TYPE_CHECKING:
    from .machine import Machine


class Preempting:
    """Lane 0: a row of looks, or the innermost step."""

    def __init__(self, machine: "Machine", draft: Draft):
        self._machine, self.draft, self.lane = machine, draft, 0
        self.told: list[Told] = []

    def may_move(self) -> bool:
        return not any(lane.stage.word == ASSERTED for lane in self.draft.lanes) and not self._machine.is_over(self.draft)

    def move(self) -> None:
        kernel, book = self.draft.kernel, self.draft.book
        if kernel.row < 0:
            self._within(kernel.running[-1])
            return
        if book:
            book.see(self._machine.system.objects[kernel.row].priority)
        if self.draft.queues[kernel.row]:
            if book:
                book.found_entry()
            self.draft.kernel = kernel._replace(running=(*kernel.running, kernel.row), row=-1)
            self._within(kernel.row)
        else:
            self._pass(kernel)

    def _within(self, place: int) -> None:
        running = Running(self._machine, self.draft, place)
        running.move()
        self.told += running.told
        self._resume()

    def _pass(self, kernel: Kernel) -> None:
        """The queue was seen to be empty: the next one is looked at, or the row ends."""
        objects, row = self._machine.system.objects, kernel.row - 1
        if row >= 0 and objects[row].priority > floor_of(self._machine, kernel):
            self.draft.kernel = kernel._replace(row=row)
        elif kernel.running:
            self.draft.kernel = kernel._replace(row=-1)
            if self.draft.book:
                self.draft.book.end_look()
            self._resume()
        else:
            self.draft.kernel = kernel._replace(row=len(objects) - 1)
            if self.draft.book:
                self.draft.book.end_row()

    def _resume(self) -> None:
        """Interrupted steps go on as far as they do so alone."""
        while self.draft.kernel.row < 0 and self.draft.kernel.running and self.may_move():
            running = self.draft.kernel.running
            Running(self._machine, self.draft, running[-1]).go_on()
            if self.draft.kernel.running == running:
                break
