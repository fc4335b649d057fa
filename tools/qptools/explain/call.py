"""The words of a call: the command, its options, its files, and the first thing that is wrong with them."""

from dataclasses import dataclass, field

from .names import like
from .table import Command, commands

#: The kernels in which a run has threads, so that two runs of the same words may differ.
THREADED = ("qk", "port", "wait")


@dataclass
class Call:
    """A command, its options with their values, and the names behind them; `fault` is the first thing that is wrong, or nothing."""

    command: str
    options: dict[str, str] = field(default_factory=dict)
    files: list[str] = field(default_factory=list)
    fault: str = ""

    def kind_of(self, name: str) -> str:
        """What a file is for this call: `SYSTEM`, `STIMULI`, `JOURNAL` or `FRAMES`; nothing where it isn't known."""
        kind = next((kind for kind, file in zip(files_of(self.command), self.files) if file == name), "")
        return "FRAMES" if kind == "JOURNAL" and self.options.get("--from") == "frames" else kind

    def is_threaded(self) -> bool:
        """Whether a run has threads, so that it may go otherwise when it is made once more."""
        return self.options.get("--kernel") in THREADED

    def to_journal(self) -> list[str]:
        """The words of the same run with its journal as text for output, in the form that its kernel has."""
        kept = [word for name in ("--kernel", "--budget") if name in self.options for word in (name, self.options[name])]
        return [self.command, *kept, "--", *self.files]


def files_of(command: str) -> tuple[str, ...]:
    """What the files of a command are; nothing for a word that is no command."""
    return commands()[command].files if command in commands() else ()


def read_call(words: list[str]) -> Call:
    """The call of some words, however faulty."""
    made = Call(words[0] if words else "")
    known = commands().get(made.command, Command(()))
    rest = list(words[1:])
    faults: list[str] = []
    while rest:
        word = rest.pop(0)
        if word == "--":
            made.files += rest
            break
        if word.startswith("-") and word != "-":
            name, equals, value = word.partition("=")
            has_value = bool(equals) or word.startswith("--") and bool(rest)
            value = value if equals else rest.pop(0) if has_value else ""
            faults.append(_option_fault(made, known, name, value if has_value else None))
            made.options[name] = value
        else:
            made.files.append(word)
    faults += [_count_fault(made, known), _pair_fault(made)]
    made.fault = next(filter(None, faults), "") if made.command in commands() else ""
    return made


def _option_fault(made: Call, known: Command, name: str, value: str | None) -> str:
    """What is wrong with an option, whose value is none where it has none."""
    if name not in known.options:
        return f"`{made.command}` has no option {name!r}" + _meant(name, list(known.options))
    if name in made.options:
        return f"{name} stands twice"
    if value is None:
        return f"{name} has no value"
    return "" if known.options[name].has(value) else f"{name} is {known.options[name].told()}, not {value!r}"


def _meant(name: str, options: list[str]) -> str:
    """The option that may be meant: by its first letter, as `-k`, or by its likeness; else those that there are."""
    letter = [option for option in options if len(name) == 2 and option.startswith(f"-{name}")]
    if near := letter[0] if letter else like(name, options):
        return f"; did you mean `{near}`?"
    return f"; it has {', '.join(options)}" if options else "; it has none"


def _count_fault(made: Call, known: Command) -> str:
    files = known.files
    if lacking := files[len(made.files):]:
        verb = "is" if len(lacking) == 1 else "are"
        return f"{' and '.join(lacking)} {verb} missing: qp {made.command} {' '.join(files)}"
    if len(made.files) > len(files):
        if twice := next((name for place, name in enumerate(made.files) if name in made.files[:place]), ""):
            return f"{twice!r} stands twice: qp {made.command} {' '.join(files)}"
        return f"{made.files[len(files)]!r} is a word too many: qp {made.command} {' '.join(files)}"
    if known.number and not known.number.has(made.files[0]):
        return f"{files[0]} is {known.number.told()}, not {made.files[0]!r}"
    return ""


def _pair_fault(made: Call) -> str:
    is_odd = made.options.get("--kernel") == "qv" and made.options.get("--form") == "1"
    return "a journal of qv has form 2 alone" if is_odd else ""
