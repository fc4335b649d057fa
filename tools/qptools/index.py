"""The table of a crate's public functions, which its page has: by module, what each does, and the definitions that its contract cites."""

import re
import sys
from collections.abc import Iterator
from pathlib import Path
from typing import NamedTuple

from .program import TOP

USAGE = """usage: tools/index [--write] [CRATE ..]

Compares the table of public functions in the crates' pages with their sources; with --write it writes these tables, at the end of each page
that has none yet. All crates that have public functions are taken where none is named. Takes a second.
Ends with 1 where a page has another table than its sources, or none."""

HEADING = "## Public functions"
_HEAD = f"{HEADING}\n\n| Module | Function | What it does | Its contract cites |\n|---|---|---|---|\n"
#: So many of the definitions that a contract cites are named.
_CITED = 4
_EXPORTED = re.compile(r"^pub use ([^;]*);", re.M)
_IMPORTED = re.compile(r"^ghost use Rattle\.qp_\w+\.specs\.[\w.]*?(?:\.(\w+)|\.\{([^}]*)\});", re.M)
_BLOCK = re.compile(r"(?:pub )?(impl|trait)\b(?:<[^{]*?>)? ?(?:[^{]*? for )?&?(?:mut )?(\w+)")
_FUNCTION = re.compile(r"(\s*)(pub )?fn (\w+)")


class Function(NamedTuple):
    """A function of a module, by the type or trait that it belongs to, if any."""

    module: str
    owner: str
    name: str
    does: str
    cites: list[str]

    def row(self) -> str:
        name = f"{self.owner}::{self.name}" if self.owner else self.name
        cited = ", ".join(f"`{word}`" for word in self.cites[:_CITED]) + (" .." if len(self.cites) > _CITED else "")
        return f"| `{self.module}` | `{name}` | {self.does.replace('|', chr(92) + '|')} | {cited} |\n"


def functions(crate: Path) -> list[Function]:
    """The functions of a crate that others may call, in the order of its files."""
    root = (crate / "src" / "lib.rt").read_text()
    exported = {name for use in _EXPORTED.findall(root) for name in re.findall(r"\w+", use)}
    opened = set(re.findall(r"^pub mod (\w+);", root, re.M))
    found: list[Function] = []
    for file in sorted((crate / "src").rglob("*.rt")):
        path = file.relative_to(crate / "src").with_suffix("").parts
        module = "::".join(path)
        is_open = path[0] in opened or module == "lib"
        found += [it for it in _functions_of(file.read_text(), module) if is_open or (it.owner or it.name) in exported]
    return found


def _functions_of(text: str, module: str) -> Iterator[Function]:
    imported = {word for one, many in _IMPORTED.findall(text) for word in re.findall(r"[\w-]+", one or many)}
    lines = text.splitlines()
    owner, is_trait = "", False
    for at, line in enumerate(lines):
        if line and not line[0].isspace() and (block := _BLOCK.match(line)):
            owner, is_trait = block[2], block[1] == "trait" and line.startswith("pub ")
        elif line.startswith("}"):
            owner, is_trait = "", False
        made = _FUNCTION.match(line)
        if made and (made[2] or is_trait) and bool(made[1]) == bool(owner):
            yield Function(module, owner, made[3], _does(lines, at), _cites(lines, at, imported))


def _does(lines: list[str], at: int) -> str:
    """The first sentence of what stands above a function."""
    told: list[str] = []
    for line in reversed(lines[:at]):
        text = line.strip()
        if text.startswith("///"):
            told.insert(0, text[3:].strip())
        elif not text.startswith("#["):
            break
    return re.split(r"(?<=[.;:]) ", " ".join(told) + " ", maxsplit=1)[0].strip().rstrip(".;:")


def _cites(lines: list[str], at: int, imported: set[str]) -> list[str]:
    """The imported definitions that its `ensures` name, each once, in their order."""
    clauses, is_in = "", False
    for line in lines[at:]:
        if line.strip() in ("", "{") or line.startswith("}"):
            break
        is_in = is_in and not line.strip().startswith("requires") or line.strip().startswith("ensures")
        clauses += line + "\n" if is_in else ""
    return list(dict.fromkeys(word for word in re.findall(r"[A-Za-z_][\w-]*", clauses) if word in imported))


def table(crate: Path) -> str:
    """The part of a crate's page that has the table; nothing for a crate without public functions."""
    if not (crate / "src" / "lib.rt").is_file() or not (found := functions(crate)):
        return ""
    return _HEAD + "".join(function.row() for function in found)


def _of_page(text: str) -> str:
    """What a page has of a table: from its heading to the next one."""
    _, heading, rest = text.partition(HEADING)
    return heading + re.split(r"^## ", rest, maxsplit=1, flags=re.M)[0].rstrip("\n") + "\n" if heading else ""


def difference(crate: Path) -> str | None:
    """What is wrong with the table of a crate's page, if it has one."""
    had = _of_page((crate / "README.md").read_text())
    if not had or had == table(crate):
        return None
    odd = [line for line in had.splitlines() if line not in table(crate).splitlines()]
    lost = [line for line in table(crate).splitlines() if line not in had.splitlines()]
    return f"the table of public functions isn't that of the sources (tools/index --write {crate.name}): {(odd + lost + ['their order'])[0]}"


def main(words: list[str]) -> int:
    """Compares or writes the tables; answers the status."""
    if words in (["-h"], ["--help"]):
        print(USAGE)
        return 0
    writes = words[:1] == ["--write"]
    names = words[writes:] or sorted(page.parent.name for page in (TOP / "crates").glob("*/README.md"))
    wrong = 0
    for name in names:
        page = TOP / "crates" / name / "README.md"
        if not page.is_file():
            print(f"tools/index: there is no crates/{name}/README.md", file=sys.stderr)
            return 1
        text, made = page.read_text(), table(page.parent)
        had = _of_page(text)
        if had == made:
            continue
        if writes:
            page.write_text(text.replace(had, made) if had else f"{text.rstrip(chr(10))}\n\n{made}")
        else:
            print(f"crates/{name}: {difference(page.parent) or 'its page has no table of public functions'}")
            wrong += 1
    return int(wrong > 0)
