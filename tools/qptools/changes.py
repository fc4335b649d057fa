"""Changes of files as the documents write them: `NEW` for `OLD`, `NEW` behind `OLD`, no `OLD`, and how a file is saved.

A change is made in the one file, and at the one place in it, that has OLD.
"""

import re

_STATES = "five states more, each within the one before"
_MARK = "\ufeff"


def change(files: dict[str, str], words: list[str], part: str) -> None:
    """Makes one part of a change in the files, or in the words of a call. Raises `LookupError` where nothing has OLD once."""
    codes = re.findall(r"`([^`]*)`", part)
    new, old = codes[:-1], codes[-1]
    if part.startswith("Windows line ends in "):
        files[old] = files[old].replace("\n", "\r\n")
        return
    if part.startswith("a byte order mark before "):
        files[old] = _MARK + files[old]
        return
    if _STATES in part:
        for name, parent in zip("abcde", ("on", *"abcd")):
            new += ["[[chart.state]]", f'name = "{name}"', f'parent = "{parent}"']
    if old in words:
        words[words.index(old) + 1:words.index(old) + 1] = [word for text in new for word in text.split()]
        return
    found, kind = [name for name, text in files.items() if text.count(old) == 1], re.search(r"\b(no|for|behind) `[^`]*`", part)
    if not found or not kind:
        raise LookupError(f"no file has `{old}` once")
    name, text = found[0], {"no": "", "for": "\n".join(new), "behind": "\n".join([old, *new])}[kind[1]]
    files[name] = files[name].replace(old if text else f"{old}\n", text)


def change_all(files: dict[str, str], words: list[str], cell: str) -> None:
    """Makes all parts of a change, which `; ` parts."""
    for part in re.split(r"; (?=(?:no )?`|Windows|a byte)", cell):
        change(files, words, part)
