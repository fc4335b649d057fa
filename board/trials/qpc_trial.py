"""Sources for QP/C 8 over the header that stands in for it: compiled, run with threads, and judged by the charts of the system."""

from collections.abc import Iterator, Sequence
from pathlib import Path

from qpboard.building import BOARD, HOST, compile_all, print_all
from qpboard.qpc_sources import qpc_texts
from qpviewer.stimuli import read_stimuli
from qpviewer.system import read_system

from .generating import make
from .places import EXAMPLES
from .threads_trial import FLAGS, RUNS, Program

_STAND_IN = BOARD / "qpc-stand-in"
#: Examples that are compiled beside those that run.
_MORE = ("clock/clock.toml", "inversion/ceiling.toml", "tour/defer.toml", "lamp.toml")
_NAME = "sources"


def programs(compiler: str, folder: Path) -> Iterator[Program]:
    """The runs with threads, by the sources for QP/C."""
    for number, (file, stimuli) in enumerate(RUNS):
        own = folder / f"qpc-{number}"
        own.mkdir()
        yield Program(file, _build(compiler, file, stimuli, own))


def compiled(compiler: str, folder: Path, systems: int) -> int:
    """Compiles the sources of examples and of random systems, and nothing else. Answers how many. Raises `NotBuilt`."""
    # what random expressions compare and join, compilers warn of
    texts = [((EXAMPLES / name).read_bytes(), []) for name in _MORE] + [(make(number).system.encode(), ["-w"]) for number in range(systems)]
    for number, (data, flags) in enumerate(texts):
        own = folder / f"qpc-compiled-{number}"
        own.mkdir()
        _compile(compiler, data, own, flags)
    return len(texts)


def _build(compiler: str, file: Path, stimuli: Path, folder: Path) -> Path:
    data = file.read_bytes()
    system = read_system(data)
    tables = print_all(folder, system, file.name, read_stimuli(stimuli.read_bytes(), system))
    # the stand-in leaves some of the interpreter's functions out
    stand_in = _object(compiler, _STAND_IN / "stand_in.c", folder, "stand_in.o", ["-Wno-unused-function"])
    files = [_compile(compiler, data, folder), stand_in, tables[1], HOST / "threads.c"]
    return compile_all(compiler, [*FLAGS, "-DQP_RECORD=2", "-O0", f"-I{_STAND_IN}"], files, folder / "threads")


def _compile(compiler: str, data: bytes, folder: Path, flags: Sequence[str] = ()) -> Path:
    own = folder / "qpc"
    own.mkdir()
    for name, text in qpc_texts(read_system(data), _NAME, "system.toml").items():
        (own / name).write_text(text)
    return _object(compiler, own / f"{_NAME}.c", folder, "sources.o", flags)


def _object(compiler: str, source: Path, folder: Path, name: str, flags: Sequence[str]) -> Path:
    words = [*FLAGS, "-DQP_RECORD=2", "-O0", f"-I{_STAND_IN}", f"-I{source.parent}", *flags, "-c"]
    return compile_all(compiler, words, [source], folder / name)
