"""Where a row of looks of lane 0 begins, under `qk`."""

from typing import TYPE_CHECKING

from .spot import Draft, Kernel

if TYPE_CHECKING:
    from .machine import Machine


def floor_of(machine: "Machine", kernel: Kernel) -> int:
    """The priority that an object must exceed to be looked at."""
    objects = machine.system.objects
    return max(objects[kernel.running[-1]].threshold if kernel.running else 0, *kernel.ceilings, 0)


def look(machine: "Machine", draft: Draft) -> None:
    """A look begins; its row goes on where it has an object to look at."""
    top, floor = len(draft.lanes) - 1, floor_of(machine, draft.kernel)
    sees = machine.system.objects[top].priority > floor
    if draft.book:
        draft.book.look(floor, sees)
    if sees:
        draft.kernel = draft.kernel._replace(row=top)
