"""Reads a trace: puts its pieces together, and says what is missing."""

from dataclasses import dataclass, field

from qpviewer.faults import Fault

from .pieces import ONE, Piece, Pieces
from .records import CUT, Raw, buffer_name, read_records

#: So many hurt stretches are told one by one.
MOST_TOLD = 8


@dataclass
class Trace:
    """What was recorded, as far as it can be trusted. `order` has all records where there is one order of them, and nothing otherwise.
    It `is_whole` where nothing is missing up to the end that the framework stated. `told` has what is missing, and of it `open` what
    may still come."""

    form: int
    lanes: dict[int, list[Raw]] = field(default_factory=dict)
    order: list[Raw] = field(default_factory=list)
    told: list[str] = field(default_factory=list)
    open: list[str] = field(default_factory=list)
    is_whole: bool = True


@dataclass
class _Buffer:
    """The pieces of one buffer from the first one on, up to the first that is missing."""

    content: bytearray = field(default_factory=bytearray)
    next: int = 0
    last: Piece | None = None
    #: The number of the first piece behind a gap.
    behind_gap: int = 0
    left_out: int = 0
    behind_end: int = 0

    def begins_anew(self, piece: Piece) -> bool:
        """Whether the piece is one of another run: its number was there already, and it isn't the last one once more."""
        return not self.has_end and piece.number < self.next and piece != self.last

    def add(self, piece: Piece) -> None:
        if self.has_end:
            self.behind_end += 1
        elif piece.number == self.next and not self.behind_gap:
            self.content += piece.content
            self.next += 1
            self.last = piece
        elif piece.number > self.next:
            self.behind_gap = self.behind_gap or piece.number
            self.left_out += 1

    @property
    def has_end(self) -> bool:
        return self.last is not None and self.last.is_last

    @property
    def is_whole(self) -> bool:
        return self.last is not None and self.last.is_last and not self.last.lost

    def trusted(self) -> bytes:
        """The bytes before the first record that was lost."""
        return bytes(self.content[:self.last.before_lost] if self.last and self.last.lost else self.content)

    def missing(self) -> list[str]:
        """What is missing of it for good."""
        told: list[str] = []
        if self.behind_gap:
            one = self.behind_gap == self.next + 1
            which = f"piece {self.next} is" if one else f"pieces {self.next} to {self.behind_gap - 1} are"
            told.append(f"{which} missing; what follows is left out")
        if self.last and self.last.lost:
            told.append("records found no room and are lost; what follows is left out")
        return told

    def still_open(self) -> list[str]:
        """What of it may still come, and how much is left out so far."""
        told: list[str] = []
        if self.left_out or self.behind_end:
            told.append(f"left out: {_pieces(self.left_out + self.behind_end)} behind its {'end' if self.behind_end else 'gap'}")
        if self.last and self.last.lost:
            told.append(f"{self.last.lost} records are lost")
        if not self.behind_gap and not self.has_end:
            told.append("its end is missing: the run just stops, or its last pieces are lost")
        return told


def _pieces(count: int) -> str:
    return f"{count} whole piece{'s' * (count != 1)}"


def read_trace(data: bytes) -> Trace:
    """The records of a trace. Raises `Fault` where the bytes aren't one."""
    pieces = Pieces()
    pieces.feed(data)
    pieces.finish()
    return trace_of(pieces)


def trace_of(pieces: Pieces) -> Trace:
    """The records of pieces. Raises `Fault` where there are none, or none that belong together."""
    forms = {piece.form for piece in pieces.whole}
    if not forms and pieces.unchecked is not None:
        raise Fault(f"byte {pieces.unchecked}", "a piece without a number and a check, of a former qp_record.h; record the run anew")
    if len(forms) != 1:
        raise Fault("", "has pieces of both forms" if forms else "has no whole piece of a trace")
    trace = Trace(forms.pop(), told=_hurt(pieces.hurt))
    buffers: dict[int, _Buffer] = {}
    for piece in pieces.whole:
        buffer = buffers.setdefault(piece.who, _Buffer())
        if buffer.begins_anew(piece):
            name = buffer_name(trace.form, piece.who)
            trace.told.append(f"{name}: piece {piece.number} comes once more, as behind a restart; what follows is left out")
            break
        buffer.add(piece)
    for key, buffer in sorted(buffers.items()):
        _read_buffer(trace, key, buffer)
    opened = max(piece.buffers for piece in pieces.whole)
    if len(buffers) < opened:
        trace.is_whole = False
        trace.open.append(f"{opened - len(buffers)} of {opened} buffers have no whole piece")
    trace.told += trace.open
    return trace


def _hurt(stretches: list[tuple[int, int]]) -> list[str]:
    told = [f"bytes {start} to {end - 1} are no whole piece" for start, end in stretches[:MOST_TOLD]]
    more = stretches[MOST_TOLD:]
    return told + [f"nor are {sum(end - start for start, end in more)} bytes behind them, in {len(more)} stretches"] * bool(more)


def _read_buffer(trace: Trace, key: int, buffer: _Buffer) -> None:
    records, wrong = read_records(trace.form, key, buffer.trusted())
    name = buffer_name(trace.form, key)
    trace.is_whole = trace.is_whole and buffer.is_whole and not wrong
    is_cut = wrong.startswith(CUT)
    trace.told += [f"{name}: {line}" for line in [*buffer.missing(), *[wrong] * bool(wrong and not is_cut)]]
    trace.open += [f"{name}: {line}" for line in [*buffer.still_open(), *[wrong] * is_cut]]
    if trace.form == ONE:
        trace.order = records
    for record in records:
        trace.lanes.setdefault(record.who, []).append(record)
