"""The commands of docs/BOARD.md: those of a block `sh` run one after another, and print what the block `text` behind it has."""

import re
import subprocess
import tempfile
from collections.abc import Iterator

from .places import TOP

_BLOCK = re.compile(r"^```sh\n(.*?)^```$(?:\n*^```text\n(.*?)^```$)?", re.M | re.S)
#: A command that needs a board's compiler or QEMU.
_OF_A_BOARD = re.compile(r"cortex-m3/|/tmp/lamp/(?:trace|found)")
_PATIENCE = 300


def wrong_of_page(has_board: bool) -> Iterator[str]:
    """What the page's commands do otherwise than it says; where there is no board, those of a board are left out."""
    with tempfile.TemporaryDirectory() as folder:
        for commands, wanted in _BLOCK.findall((TOP / "docs" / "BOARD.md").read_text()):
            lines = commands.replace("\\\n", "").splitlines()
            if not has_board and any(map(_OF_A_BOARD.search, lines)):
                continue
            script = "\n".join(lines).replace("/tmp/", f"{folder}/")
            ran = subprocess.run(["sh", "-ec", script], cwd=TOP, stdin=subprocess.DEVNULL, stdout=subprocess.PIPE, stderr=subprocess.STDOUT,
                                 text=True, timeout=_PATIENCE)
            said = ran.stdout.replace(f"{folder}/", "/tmp/")
            if ran.returncode or wanted and said != wanted:
                yield f"`{lines[0]}` ends with {ran.returncode}, and prints\n{said}"
