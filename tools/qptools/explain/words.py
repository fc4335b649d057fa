"""What is wrong with the words of a call."""

from .call import read_call
from .names import like
from .table import commands, other_words

#: How the words stand that the launcher answers by itself.
_ALONE = {
    "build": "it takes no words", "--version": "it takes no words", "help": "it takes one command at most: qp help run",
    "--help": "it stands alone or behind a command: qp run --help", "-h": "it stands alone or behind a command: qp run -h",
}
#: Words of other programs that have another name here.
_OTHERWISE = {"-v": "--version", "-V": "--version", "-?": "--help"}


def explain_words(words: list[str]) -> str:
    """Names the word that isn't in the table, or says what is missing; nothing where none of this is found."""
    if not words:
        return "no command: `qp help` has them"
    if any("\udc80" <= letter <= "\udcff" for word in words for letter in word):
        return "a word isn't text in UTF-8"
    command = words[0]
    if command in _ALONE:
        return f"`{command}` is answered by the launcher: {_ALONE[command]}"
    if command not in commands():
        near = _OTHERWISE.get(command) or like(command, [*commands(), *other_words()])
        return f"no command is called {command!r}" + (f"; did you mean `{near}`?" if near else "; `qp help` has them")
    return read_call(words).fault
