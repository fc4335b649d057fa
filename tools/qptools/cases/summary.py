"""Reads a summary, as `qp run --out summary` prints it (docs/FORMATS.md, section 8)."""

from dataclasses import dataclass


@dataclass(frozen=True)
class ObjectSummary:
    """How many events an object took, its state and its variables; without a state where its start or last step isn't done."""

    taken: int
    state: str | None
    vars: dict[str, int]


@dataclass(frozen=True)
class Summary:
    """The end, the objects by their names, and for each pool how many blocks it gave and got back."""

    end: int
    objects: dict[str, ObjectSummary]
    pools: list[tuple[int, int]]


def read_summary(text: str) -> Summary:
    """The summary of a text that the program printed."""
    end, objects, pools = 0, {}, []
    for line in text.splitlines():
        word, *rest = line.split(" ")
        if word == "end":
            end = int(rest[0])
        elif word == "object":
            name, taken, state, *values = rest
            pairs = (value.split("=") for value in values)
            objects[name] = ObjectSummary(int(taken), None if state == "-" else state, {key: int(value) for key, value in pairs})
        elif word == "pool":
            pools.append((int(rest[2]), int(rest[4])))
    return Summary(end, objects, pools)
