"""A trace is followed over a pseudo-terminal, as from a board: its words come before its end does, and the verdict behind it."""

import os
import pty
import select
import subprocess
import sys
import tty
from pathlib import Path

from .judging import PATIENCE, run
from .places import RECORDER, RUNS
from .wire import pieces_of

#: So many bytes are sent at once.
MOST_SENT = 100
#: What the line sends in front of the trace.
NOISE = b"boot: 32 KB of RAM\r\n\x11QPR"


def try_following(name: str, program: Path, folder: Path) -> list[str]:
    """What is wrong where a run is followed to its end, and where it is interrupted before its last piece."""
    folder.mkdir(exist_ok=True)
    run(program, RUNS[name].stimuli, folder / "trace")
    *pieces, last = pieces_of((folder / "trace").read_bytes())
    wrong = _Line(name, folder).wrong([NOISE, *pieces], last, [])
    return wrong + _Line(name, folder).wrong([NOISE, *pieces], b"", ["its end is missing", "added: "])


class _Line:
    """A line with a follower at its other end."""

    def __init__(self, name: str, folder: Path):
        self._near, far = pty.openpty()
        tty.setraw(far)
        self._kept = folder / "kept"
        words = [sys.executable, RECORDER / "qp_journal", "--follow", os.ttyname(far), RUNS[name].system, self._kept]
        self._follower = subprocess.Popen(words, stdout=subprocess.PIPE, stderr=subprocess.PIPE)
        self._far = far

    def wrong(self, sent: list[bytes], last: bytes, told: list[str]) -> list[str]:
        """Sends bytes in small parts, waits until something is told, and sends the last ones, or interrupts where there are none."""
        for part in sent:
            self._send(part)
        first = self._first_word()
        if last:
            self._send(last)
        else:
            self._follower.terminate()
        out, err = self._follower.communicate(timeout=PATIENCE)
        os.close(self._near)
        os.close(self._far)
        lines, said = (first + out).decode().splitlines(), err.decode()
        wrong = [] if first else ["nothing is told before the end"]
        if self._follower.returncode or not lines or lines[-1] != "lawful":
            wrong.append(f"status {self._follower.returncode}: {lines[-1:]} {said}")
        if not any(" starts" in line for line in lines):
            wrong.append(f"no start is told: {lines[:3]}")
        wrong += [f"{line!r} isn't told: {said}" for line in ["are no whole piece", *told] if line not in said]
        if (self._kept / "trace.bin").read_bytes() != b"".join([*sent, last]):
            wrong.append("the bytes that were kept aren't those that were sent")
        return wrong

    def _send(self, part: bytes) -> None:
        for at in range(0, len(part), MOST_SENT):
            os.write(self._near, part[at:at + MOST_SENT])

    def _first_word(self) -> bytes:
        """The first that is told, while the line stands."""
        out = self._follower.stdout
        assert out is not None
        ready, _, _ = select.select([out], [], [], PATIENCE)
        return os.read(out.fileno(), 1) if ready else b""
