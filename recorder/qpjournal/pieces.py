"""Pieces of a trace, as `qpr_take()` of qp_record.h makes them: each has a head with its number and a check.

The bytes may come from a line that isn't clean. What isn't a whole piece is passed over up to the next one that is.
"""

import struct
from typing import NamedTuple
from zlib import crc32

MAGIC = b"QPR"
ONE, LANES = 1, 2
HEAD = 24
WHOS = 49
#: The layout of a head in front of its form; the first layout had neither a number nor a check.
LAYOUT = 2 << 4

_LAST = 0x80
_HEAD = struct.Struct("<3sBBBHIIII")
#: The bytes that a check is over: all but itself.
_CHECKED = HEAD - 4


class Piece(NamedTuple):
    """A whole piece: its form, whose buffer it is of, its number there, how many buffers there are, whether it is the last one of its
    buffer, how many records were lost so far and how many bytes of records stand before the first of these, and its bytes."""

    form: int
    who: int
    number: int
    buffers: int
    is_last: bool
    lost: int
    before_lost: int
    content: bytes


class Pieces:
    """Takes bytes as they come, and finds the pieces in them."""

    def __init__(self) -> None:
        self.whole: list[Piece] = []
        #: Stretches of bytes between whole pieces, by their first byte and the one behind them.
        self.hurt: list[tuple[int, int]] = []
        #: Where the first piece without a check begins.
        self.unchecked: int | None = None
        self._data = bytearray()
        self._from = 0
        #: No whole piece begins from `_from` up to here, but perhaps at one of `_pending`, whose bytes aren't all there.
        self._tried = 0
        self._pending: list[int] = []

    def feed(self, data: bytes) -> None:
        """Takes the next bytes."""
        self._data += data
        while (start := self._next()) is not None:
            self._take(start)

    def finish(self) -> None:
        """No more bytes come, so what isn't a whole piece by now won't be one."""
        self._skip(self._from + len(self._data))

    def _next(self) -> int | None:
        """Where the next whole piece begins, as far as its bytes are there. A piece that isn't whole yet has to wait, but a whole one
        behind its head tells that it is none."""
        for start in self._pending:
            if self._is_whole(start):
                return start
        while (at := self._data.find(MAGIC, self._tried - self._from)) >= 0:
            start = self._from + at
            self._tried = start + 1
            if self._is_whole(start):
                return start
            if self._may_become_whole(start):
                self._pending.append(start)
        self._tried = max(self._tried, self._from + len(self._data) - len(MAGIC) + 1)
        self._drop_noise()
        return None

    def _take(self, start: int) -> None:
        self._skip(start)
        piece = self._piece(start)
        assert piece is not None
        self.whole.append(piece)
        size = HEAD + len(piece.content)
        del self._data[:size]
        self._from += size
        self._tried = self._from
        self._pending = []

    def _drop_noise(self) -> None:
        """Bytes in front of all that may become a piece aren't needed any more."""
        self._pending = [start for start in self._pending if self._may_become_whole(start)]
        self._skip(min([self._tried, *self._pending]))

    def _skip(self, end: int) -> None:
        if end <= self._from:
            return
        if self.hurt and self.hurt[-1][1] == self._from:
            self.hurt[-1] = (self.hurt[-1][0], end)
        else:
            self.hurt.append((self._from, end))
        del self._data[:end - self._from]
        self._from = end
        self._tried = max(self._tried, end)

    def _head(self, start: int) -> bytes:
        return bytes(self._data[start - self._from:start - self._from + HEAD])

    def _end(self, head: bytes) -> int:
        return HEAD + int.from_bytes(head[6:8], "little")

    def _may_become_whole(self, start: int) -> bool:
        """Whether its bytes aren't all there."""
        head = self._head(start)
        if len(head) > 3 and head[3] not in (LAYOUT | ONE, LAYOUT | LANES):
            if head[3] in (ONE, LANES) and head[5:8] == bytes(3) and self.unchecked is None:
                self.unchecked = start
            return False
        if len(head) > 4 and head[4] >= WHOS:
            return False
        return len(head) < HEAD or start - self._from + self._end(head) > len(self._data)

    def _is_whole(self, start: int) -> bool:
        return self._piece(start) is not None

    def _piece(self, start: int) -> Piece | None:
        head = self._head(start)
        if len(head) < HEAD:
            return None
        magic, layout, who, buffers, count, number, lost, before_lost, check = _HEAD.unpack(head)
        begin = start - self._from + HEAD
        if layout not in (LAYOUT | ONE, LAYOUT | LANES) or who >= WHOS or len(self._data) < begin + count:
            return None
        content = bytes(self._data[begin:begin + count])
        if magic != MAGIC or crc32(content, crc32(head[:_CHECKED])) != check:
            return None
        return Piece(layout & 0x0F, who, number, buffers & ~_LAST, bool(buffers & _LAST), lost, before_lost, content)
