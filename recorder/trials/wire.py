"""Pieces made by hand, and taken apart."""

import struct
from zlib import crc32

from qpjournal.pieces import HEAD, LAYOUT, Pieces

_LAST = 0x80


def piece(form: int, who: int, content: bytes, number: int = 0, buffers: int = 1, is_last: bool = True, lost: int = 0,
          before_lost: int = 0) -> bytes:
    """A piece as `qpr_take()` makes it."""
    flags = buffers | (_LAST if is_last else 0)
    head = struct.pack("<3sBBBHIII", b"QPR", LAYOUT | form, who, flags, len(content), number, lost, before_lost)
    return head + struct.pack("<I", crc32(content, crc32(head))) + content


def pieces_of(trace: bytes) -> list[bytes]:
    """The pieces of a trace that nothing hurt."""
    found: list[bytes] = []
    at = 0
    while at < len(trace):
        end = at + HEAD + int.from_bytes(trace[at + 6:at + 8], "little")
        found.append(trace[at:end])
        at = end
    return found


def stopped_at(trace: bytes, kept: dict[int, int]) -> bytes:
    """The trace of buffers that stop each by itself: so many bytes of the records of each are left, in one piece without an end."""
    pieces = Pieces()
    pieces.feed(trace)
    content: dict[int, bytes] = {}
    for one in pieces.whole:
        content[one.who] = content.get(one.who, b"") + one.content
    last = {one.who: one for one in pieces.whole}
    return b"".join(
        piece(last[who].form, who, content[who][:kept[who]], 0, last[who].buffers, False, last[who].lost, last[who].before_lost)
        for who in content
    )


def lengths_of(trace: bytes) -> dict[int, int]:
    """How many bytes of records each buffer has."""
    pieces = Pieces()
    pieces.feed(trace)
    found: dict[int, int] = {}
    for one in pieces.whole:
        found[one.who] = found.get(one.who, 0) + len(one.content)
    return found
