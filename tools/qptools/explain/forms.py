"""How each action is written: said where nothing else is known of a text that isn't one."""

import re

#: The form of each action, by its word.
FORMS = {
    "say": "say EXPRESSION",
    "post": "post OBJECT EVENT [margin N] [reserve N]",
    "lifo": "lifo EVENT [reserve N]",
    "forward": "forward OBJECT [margin N]",
    "publish": "publish EVENT [reserve N]",
    "defer": "defer",
    "recall": "recall",
    "flush": "flush",
    "subscribe": "subscribe SIGNAL",
    "unsubscribe": "unsubscribe SIGNAL",
    "arm": "arm TIMER(TICKS, INTERVAL)",
    "rearm": "rearm TIMER(TICKS)",
    "disarm": "disarm TIMER",
    "locked": "locked CEILING [ACTION; ACTION]",
}
_OPERATORS = "`||`, `&&`, one comparison, `+ -`, `* / %`, `!`, parentheses"


def form_of(text: str, is_guard: bool) -> str:
    """How a text of this kind is written: an action of its word, or an expression."""
    word = re.split(r"\W", text, maxsplit=1)[0]
    if is_guard:
        return f"a guard is an expression of variables, p1 to p8, `ok`, `me` and numbers with {_OPERATORS}"
    if word in FORMS:
        return f"write `{FORMS[word]}`"
    if re.match(r"\w+ *=", text):
        return f"write `{word} = EXPRESSION`, with {_OPERATORS}"
    return f"an action is `VARIABLE = EXPRESSION`, or begins with {', '.join(FORMS)}"
