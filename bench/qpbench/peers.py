"""The peers in bench/peers: small programs in C++ that do the same work without any proof, where a compiler is there."""

import os
import shutil
import subprocess
from pathlib import Path

from .calls import TOP, Wrong

SOURCES = TOP / "bench" / "peers"
COMPILERS = ("g++", "clang++")
C_COMPILERS = ("gcc", "clang")
FLAGS = ["-std=c++17", "-O2", "-pthread"]
#: The file in which bench/peers/counting.c keeps its count, by a name of the environment.
COUNTED = "THREADS_COUNTED"


def compiler(names: tuple[str, ...] = COMPILERS) -> str | None:
    """The first of these compilers that is there."""
    return next((name for name in names if shutil.which(name)), None)


def compiled(words: list[str | Path], target: Path) -> Path:
    """What a compiler makes. Raises `Wrong` where it refuses."""
    ran = subprocess.run([*words, "-o", target], stdin=subprocess.DEVNULL, capture_output=True, text=True)
    if ran.returncode != 0:
        raise Wrong(f"a peer isn't compiled:\n{ran.stderr}")
    return target


def peer(name: str, folder: Path) -> Path | None:
    """A peer, compiled in a folder; none without a compiler, which is said."""
    found = compiler()
    if not found:
        print("no compiler for C++ is there, so no peer is", flush=True)
        return None
    return compiled([found, *FLAGS, SOURCES / f"{name}.cpp"], folder / f"peer-{name}")


def counting(folder: Path) -> Path | None:
    """The library that counts a program's threads; none without a compiler."""
    found = compiler(C_COMPILERS)
    return compiled([found, "-O2", "-shared", "-fPIC", SOURCES / "counting.c"], folder / "counting.so") if found else None


def counted_in(library: Path, counted: Path) -> dict[str, str]:
    """Under which settings a call of a program counts its threads, in this file."""
    counted.unlink(missing_ok=True)
    return {"LD_PRELOAD": os.fspath(library), COUNTED: os.fspath(counted)}


def count_of(counted: Path) -> int:
    """The count that a call left."""
    return int.from_bytes(counted.read_bytes(), "little") if counted.exists() else 0
