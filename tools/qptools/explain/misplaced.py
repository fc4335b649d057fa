"""Files of a call that stand in each other's places: in the wrong order, or one of them twice."""

import re
from pathlib import Path

from .call import Call, files_of

#: So many bytes of a file tell what it is.
_LOOKED_AT = 1 << 16
_SIGNS = {
    "FRAMES": re.compile(rb"[^\n]{0,200}\x7e", re.DOTALL),
    "JOURNAL": re.compile(rb"qp [12] [0-9]+ [0-9]+\r?(?:\n|$)"),
    "STIMULI": re.compile(rb"(?:\s*|#[^\n]*\n)*(?:source|post|publish|tick|settle)\b"),
    "SYSTEM": re.compile(rb"(?:\s*|#[^\n]*\n)*(?:\[\[?\w|\w+\s*=)"),
}


def misplaced(made: Call) -> str:
    """Says how the files of a call should stand, where they seem to stand in another order; nothing where they don't."""
    wanted = files_of(made.command)
    if len(made.files) != len(wanted) or not all(Path(name).is_file() for name in made.files):
        return ""
    for place, name in enumerate(made.files):
        if name in made.files[:place]:
            return f"{name} stands twice, as {wanted[made.files.index(name)]} and as {wanted[place]}: {_form(made.command, wanted)}"
    kinds = [_kind_of(Path(name)) for name in made.files]
    if len(wanted) < 2 or kinds == list(wanted) or sorted(kinds) != sorted(wanted):
        return ""
    order = [made.files[kinds.index(kind)] for kind in wanted]
    return f"the files stand in another order: qp {made.command} {' '.join(order)}"


def _form(command: str, wanted: tuple[str, ...]) -> str:
    return f"qp {command} {' '.join(wanted)}"


def _kind_of(path: Path) -> str:
    with path.open("rb") as file:
        begin = file.read(_LOOKED_AT)
    return next((kind for kind, sign in _SIGNS.items() if kind != "FRAMES" and sign.match(begin)), "")
