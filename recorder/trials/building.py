"""Builds examples with each compiler, form and sanitizer."""

import os
import re
import shutil
import subprocess
from collections.abc import Iterable
from concurrent.futures import ThreadPoolExecutor
from pathlib import Path
from typing import NamedTuple

from .places import EXAMPLE, RECORDER

SANITIZERS = {"address": "address,undefined", "thread": "thread"}
#: A line that a framework adds to be recorded.
_OF_RECORDER = re.compile(r"\s*(#define QPR_|#include .*qp_record\.h|(if \(.*\) \{ )?QPR_[A-Z_]+\()")


class NotBuilt(Exception):
    """A program that a compiler refused, with what it said."""


def compilers() -> list[str]:
    return [name for name in ("gcc", "clang") if shutil.which(name)]


class Build(NamedTuple):
    """An example to build: with which compiler, its form, and a kind with its flags."""

    compiler: str
    app: str
    form: int
    kind: str = "plain"

    def program(self, folder: Path) -> Path:
        return folder / f"{self.app}-{self.compiler}-{self.form}-{self.kind}"


#: The flags of each kind.
KINDS = {
    "plain": [], "faults": ["-DQF_FAULTS"], "small": ["-DQF_RECORD_BYTES=256"], "pieces": ["-DQF_PIECE=200"],
    **{name: [f"-fsanitize={of}", "-fno-sanitize-recover=all", "-g"] for name, of in SANITIZERS.items()},
}


def build_all(builds: Iterable[Build], folder: Path) -> None:
    """The programs of examples; every warning is an error. Raises `NotBuilt`."""
    def one(build: Build) -> None:
        words = [EXAMPLE / "build", build.program(folder), build.app, str(build.form), *KINDS[build.kind]]
        made = subprocess.run(words, env=os.environ | {"CC": build.compiler}, stderr=subprocess.PIPE, text=True)
        if made.returncode:
            raise NotBuilt(f"{' '.join(map(str, build))}: {made.stderr}")

    with ThreadPoolExecutor(os.cpu_count()) as pool:
        list(pool.map(one, builds))


def cost(compiler: str, folder: Path, form: int) -> str:
    """What a record costs, as cost.c prints it; converting or shadowing without a word is an error there too."""
    out = folder / f"cost-{compiler}-{form}"
    flags = ["-std=c99", "-D_POSIX_C_SOURCE=200809L", "-O2", "-Wall", "-Wextra", "-pedantic", "-Wconversion", "-Wshadow", "-Werror"]
    made = subprocess.run([compiler, *flags, f"-DQP_RECORD={form}", EXAMPLE / "cost.c", "-o", out], stderr=subprocess.PIPE, text=True)
    if made.returncode:
        raise NotBuilt(f"{compiler}, cost.c, form {form}: {made.stderr}")
    return subprocess.run([out], stdout=subprocess.PIPE, check=True, text=True).stdout.strip()


def has_sanitizer(compiler: str, folder: Path, sanitizer: str) -> bool:
    """Whether the compiler has the sanitizer's library, and the machine runs it."""
    source, out = folder / "empty.c", folder / "empty"
    source.write_text("int main(void) { return 0; }\n")
    made = subprocess.run([compiler, f"-fsanitize={SANITIZERS[sanitizer]}", source, "-o", out], stderr=subprocess.DEVNULL)
    return not made.returncode and not subprocess.run([out], stderr=subprocess.DEVNULL).returncode


def left_when_off(compiler: str, folder: Path) -> list[str]:
    """The files of the framework whose machine code with the recorder off isn't that without its lines."""
    bare = folder / "bare"
    shutil.rmtree(bare, ignore_errors=True)
    bare.mkdir()
    for file in EXAMPLE.glob("*.[ch]"):
        kept = [line for line in file.read_text().splitlines() if not _OF_RECORDER.match(line)]
        (bare / file.name).write_text("".join(f"{line}\n" for line in kept))
    files = sorted(file for file in EXAMPLE.glob("*.c") if file.name != "cost.c")
    with ThreadPoolExecutor(os.cpu_count()) as pool:
        as_is = pool.map(lambda file: _assembly(compiler, file), files)
        without = pool.map(lambda file: _assembly(compiler, bare / file.name), files)
        return [file.name for file, one, other in zip(files, as_is, without) if one != other]


#: Who has buffers, and doesn't ask whether recording is on.
_CALLS = """#include "qp_record.h"
QPR_STATE();
int main(void) {
    static uint8_t bytes[64], piece[64 + QPR_HEAD];
    qpr_open(0, bytes, sizeof bytes);
    QPR_BY(QPR_OBJECT(1));
    QPR_BEGIN();
    qpr_close(0);
    return (int)qpr_take(0, piece, sizeof piece);
}
"""


def calls_left_when_off(compiler: str, folder: Path) -> bool:
    """Whether something is left of calls of the recorder's functions with the recorder off. Raises `NotBuilt`."""
    calls, nothing = folder / "calls.c", folder / "nothing.c"
    calls.write_text(_CALLS)
    nothing.write_text("int main(void) { return 0; }\n")
    words = [compiler, "-std=c99", "-Wall", "-Wextra", "-pedantic", "-Wconversion", "-Wshadow", "-Werror", f"-I{RECORDER}", "-c", calls]
    made = subprocess.run([*words, "-o", folder / "calls.o"], stderr=subprocess.PIPE, text=True)
    if made.returncode:
        raise NotBuilt(f"{compiler}, calls of the recorder's functions with the recorder off: {made.stderr}")
    return _assembly(compiler, calls) != _assembly(compiler, nothing)


def _assembly(compiler: str, file: Path) -> str:
    words = [compiler, "-std=c99", "-D_POSIX_C_SOURCE=200809L", f"-I{RECORDER}", "-DQP_RECORD=0", "-O2", "-w", "-S", "-o", "-", file]
    made = subprocess.run(words, stdout=subprocess.PIPE, check=True, text=True)
    without_names = re.sub(r"(?m)^\s*\.(file|ident).*\n", "", made.stdout)
    return re.sub(r"\.LF([BE])\d+", r".LF\1", without_names) # functions that nothing calls are counted, too
