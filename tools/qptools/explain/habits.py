"""What someone who writes C may have meant by a text that isn't an action, an expression, or a line of stimuli."""

import re
from collections.abc import Callable
from typing import NamedTuple

from .forms import FORMS
from .names import like

#: The words that actions begin with, but for an assignment.
ACTIONS = tuple(FORMS)


class Habit(NamedTuple):
    """What is looked for, and what to write in its place."""

    pattern: re.Pattern[str]
    advice: Callable[[re.Match[str]], str]


def _of(pattern: str, advice: Callable[[re.Match[str]], str] | str) -> Habit:
    if isinstance(advice, str):
        text = advice
        return Habit(re.compile(pattern), lambda _: text)
    return Habit(re.compile(pattern), advice)


#: Calls of QP's, and what an action or a row has in their place.
_OF_QP = {
    "QACTIVE_POST": "post OBJECT EVENT", "QACTIVE_POST_X": "post OBJECT EVENT margin N", "QACTIVE_POST_LIFO": "lifo EVENT",
    "QACTIVE_PUBLISH": "publish EVENT", "QF_PUBLISH": "publish EVENT", "QActive_defer": "defer", "QActive_recall": "recall",
    "QActive_flushDeferred": "flush", "QActive_subscribe": "subscribe SIGNAL", "QActive_unsubscribe": "unsubscribe SIGNAL",
    "QTimeEvt_armX": "arm TIMER(TICKS, INTERVAL)", "QTimeEvt_disarm": "disarm TIMER", "QTimeEvt_rearm": "rearm TIMER(TICKS)",
    "Q_NEW": "post OBJECT EVENT(PARAMETERS)", "Q_NEW_X": "post OBJECT EVENT(PARAMETERS) reserve N", "QF_TICK_X": "tick RATE",
    "QTIMEEVT_TICK_X": "tick RATE",
}
#: How much of a text's begin and of its end is looked at; an action has at most 200 letters.
_ENDS = 200
_STIMULI = ("post", "publish", "tick", "settle")
#: Words before a parenthesis that have an advice of their own, beside actions and calls of QP's.
_NO_FUNCTIONS = ("if", "for", "while", "switch", "lock", "unlock", "goto", "tran", "transition", "Q_TRAN", "Q_TRAN_HIST", "Q_HANDLED", "Q_SUPER")
#: The types of C that a cast or a declaration begins with.
_TYPES = "static|const|unsigned|signed|int|u?int[0-9]+_t|short|long|char|bool|float|double"


def _of_qp(match: re.Match[str]) -> str:
    return f"QP's `{match[1]}` is `{_OF_QP[match[1]]}` here"


def _of_a_row(match: re.Match[str]) -> str:
    return f"`{match[1]}` is no action: a transition is the `to` of a row, and without `to` the row stays in its state"


def _a_function(match: re.Match[str]) -> str:
    return f"no function is called, such as `{match[1]}`: `say 1` writes a number into the journal, and what another object does is posted to it"


def _no_function(match: re.Match[str]) -> str:
    return f"there are no functions, such as `{match[1]}`: only variables, parameters and numbers"


_CALL_OF_QP = _of(rf"\b({'|'.join(sorted(_OF_QP, key=len, reverse=True))})\b", _of_qp)

def _two_comparisons(match: re.Match[str]) -> str:
    parts = re.fullmatch(r"(.*?)\s*(<=?|>=?)\s*(.*?)\s*(<=?|>=?)\s*(.*)", match[0].strip())
    left, first, middle, second, right = parts.groups() if parts else ("a", "<", "b", "<", "c")
    return f"a comparison has two sides: write `{left} {first} {middle} && {middle} {second} {right}`"


def _odd_letter(match: re.Match[str]) -> str:
    letter = match[0]
    kind = "a space that isn't one" if letter.isspace() else f"the letter {letter}" if letter.isprintable() else "a letter that isn't seen"
    return f"{kind} (U+{ord(letter):04X}) stands here: " + ("write a plain space" if letter.isspace() else "write it in ASCII")


def _negative(match: re.Match[str]) -> str:
    return f"`{match[1]}` is 0 to 255, and 0 where one place is enough: " + (
        "without it a full queue is an assertion" if match[1] == "margin" else "without it an empty pool is an assertion")


#: Habits in the texts of actions and guards; the first that fits is told.
_IN_TEXTS = (
    _of(r"[^\x00-\x7f]", _odd_letter),
    _CALL_OF_QP,
    _of(r"\b(Q_TRAN|Q_TRAN_HIST|Q_HANDLED|Q_UNHANDLED|Q_SUPER)\b", _of_a_row),
    _of(r"^(goto|tran|transition|return|break)\b", _of_a_row),
    _of(rf"\((?:{_TYPES})(?: \w+)*\)", "there are no casts: each value is a whole number of 64 bits"),
    _of(rf"^(?:{_TYPES}) \w+", "no variable is declared here: it stands in `vars` of the chart, with its first value"),
    _of(r"^(for|while|do)\b", lambda m: f"there is no `{m[1]}`: an object posts an event to itself, or a timer has an interval"),
    _of(r"^switch\b", "there is no `switch`: write a row for each case, with guards"),
    _of(r"^\s|\s$", "a text has no space at its ends"),
    _of(r"[\t\n\r]", "only spaces part tokens; this text has a tab or a line end"),
    _of(r"([A-Za-z_]\w*)\s*(\+\+|--)|(\+\+|--)\s*([A-Za-z_]\w*)",
        lambda m: f"there is no `{m[2] or m[3]}`: write `{m[1] or m[4]} = {m[1] or m[4]} {(m[2] or m[3])[0]} 1`"),
    _of(r"([A-Za-z_]\w*)\s*(<<|>>|[+\-*/%&|^])=\s*(.+)", lambda m: (
        f"there is no `{m[2]}=`: write `{m[1]} = {m[1]} {m[2]} {m[3]}`" if m[2] in "+-*/%" else f"there is no `{m[2]}=`")),
    _of(r"\b0[xX]([0-9a-fA-F]+)\b", lambda m: f"numbers are decimal: write {int(m[1], 16)} for {m[0]}"),
    _of(r"\b0[bB]([01]+)\b", lambda m: f"numbers are decimal: write {int(m[1], 2)} for {m[0]}"),
    _of(r"\b0[0-9]+\b", lambda m: f"a number has no leading zero: write {int(m[0])} for {m[0]}"),
    _of(r"\b[0-9]+[uUlL]+\b", lambda m: f"a number has no suffix: write {m[0].rstrip('uUlL')}"),
    _of(r"\b[0-9]+\.[0-9]", "numbers are whole: count in a smaller unit, as tenths"),
    _of(r"\?", "there is no `?:`: use two rows with guards, or count with a comparison, which is 1 or 0, as `late + (ok == 0)`"),
    _of(r"\b(and|or|not)\b", lambda m: f"write `{ {'and': '&&', 'or': '||', 'not': '!'}[m[1]] }` for `{m[1]}`"),
    _of(r"<<|>>", "there are no shifts: multiply or divide by a power of two"),
    _of(r"(?<!&)&(?!&)|(?<!\|)\|(?!\|)|\^|~", "there are no bit operators: keep each flag in a variable of its own, or use `/` and `%`"),
    _of(r"//|/\*", "a text has no comment: put it behind the text, with `#`"),
    _of(r"^locked\b.*\[.*\blocked\b", "no `locked` stands within another: give the outer one the higher ceiling"),
    _of(r";\s*\]", "no `;` stands before `]`: it stands between actions"),
    _of(r";$", "no `;` ends a text"),
    _of(r";", "a text is one action: write each as a text of its own, as [\"a = 1\", \"b = 2\"]"),
    _of(r"^(post|forward) me\s*(?:->|\.)\s*(\w+)", lambda m: f"an object stands by its name alone: write `{m[1]} {m[2]} ..`"),
    _of(r"(?:[A-Za-z_]\w*\s*(?:->|\.)\s*)+([A-Za-z_]\w*)",
        "an event's parameters have no names: they are p1 to p8, in order, and variables stand by their name alone"),
    _of(r"^(publish|lifo|post \w+) (\w+) ([0-9][0-9, ]*)$",
        lambda m: f"parameters stand in parentheses: write `{m[1]} {m[2]}({', '.join(re.findall('[0-9]+', m[3]))})`"),
    _of(rf"^((?i:{'|'.join(ACTIONS)}))\s*\(", lambda m: f"`{m[1].lower()}` isn't a function: it stands without parentheses"),
    _of(r"^(arm|rearm) (\w+) ([0-9][0-9, ]*)$",
        lambda m: f"numbers of ticks stand in parentheses: write `{m[1]} {m[2]}({', '.join(re.findall('[0-9]+', m[3]))})`"),
    _of(r"\b(margin|reserve) -", _negative),
    _of(r"^(post \w+) ((?:margin [0-9]+ ?|reserve [0-9]+ ?)+)([A-Za-z_]\w*(?:\(.*\))?)$",
        lambda m: f"margin and reserve stand behind the event: write `{m[1]} {m[3]} {m[2].strip()}`"),
    _of(r"^(publish|lifo|recall|defer|subscribe)\b.*\bmargin\b",
        lambda m: f"`{m[1]}` has no margin" + (": each subscriber's queue must have room, else it is an assertion" if m[1] == "publish" else "")),
    _of(r"^(.*) (reserve [0-9]+) (margin [0-9]+)$", lambda m: f"the margin stands first: write `{m[1]} {m[3]} {m[2]}`"),
    _of(r"^forward\b.*\breserve\b", "`forward` has no reserve: its event is there already"),
    _of(r"^lifo (\w+) ([A-Za-z_]\w*(?:\(.*\))?)(?: |$)", lambda m: f"`lifo` posts to the object itself and names none: write `lifo {m[2]}`"),
    _of(r"^arm (\w+)\s*\(([^,]*)\)$", lambda m: f"`arm` has two numbers, ticks and interval: write `arm {m[1]}({m[2]}, 0)` for one shot"),
    _of(r"^rearm (\w+)\s*\(([^,]*),.*\)$", lambda m: f"`rearm` has one number, and the interval stays: write `rearm {m[1]}({m[2]})`"),
    _of(r"^(post|forward) (\w+)\s*\[", lambda m: f"objects have no index: each has a name of its own, as {m[2]}1"),
    _of(r"([A-Za-z_]\w*)\s*\[\s*\w+\s*\](?!.*;)", lambda m: f"there are no arrays: write a variable for each member, as {m[1]}0"),
    _of(r"[^<>=!]+(?:<=?|>=?)[^<>=!&|()]+(?:<=?|>=?)[^<>=!&|()]+$", _two_comparisons),
    _of(r"^(post|forward) (\w+),", lambda m: f"no comma stands behind the object: write `{m[1]} {m[2]} ..`"),
    _of(r"^(disarm|subscribe|unsubscribe) (\w+)\s*\(", lambda m: f"`{m[1]}` takes a name alone: write `{m[1]} {m[2]}`"),
    _of(r"^(?:post \w+|lifo|publish|subscribe|unsubscribe) (\w+)\s*\(\s*\)", lambda m: f"no empty parentheses: write `{m[1]}`"),
    _of(r"^(lock|unlock)\b|^locked \w+ [^\[]", "a ceiling is raised for its own actions alone: write `locked 3 [a = 1; b = 2]`"),
    _of(r"(\w+)\s*:=\s*(.+)", lambda m: f"`=` assigns: write `{m[1]} = {m[2]}`"),
    _of(r"\*\*", "there is no power: multiply"),
    _of(r"(?:[-=+*/%(<>!|&,]|^say)\s*([A-Za-z_]\w*)\s*\(", _no_function),
    _of(r"^\{", "actions have no braces: each is a text of its own in the list"),
    _of(r"^(defer|recall|flush) \w+", lambda m: f"`{m[1]}` stands alone: it means the event of the step, or the object's own list"),
    _of(r"\b(?:true|false)\b", "write 1 for true and 0 for false"),
    _of(r"^if\b", "a condition is the `when` of a row"),
    _of(r"[\"']", "there are no texts and no characters, only numbers"),
)
#: Habits in actions alone; those that are looked for before all others come first.
_FIRST_IN_ACTIONS = (_of(r"^$", "leave the empty text out"), _of(rf"^(?!(?i:{'|'.join((*ACTIONS, *_NO_FUNCTIONS, *_OF_QP))})\b)([A-Za-z_]\w*)\s*\(", _a_function),)
_IN_ACTIONS = (_of(r"^$", "leave the empty text out"), _of(r"^\w+\s*==", "`==` compares, `=` assigns"),)
#: Habits in guards alone.
_IN_GUARDS = (
    _of(r"^$", "leave `when` out: a row without a guard always takes its signal"),
    _of(rf"^({'|'.join(ACTIONS)})\b(?! *(?:[-+*/%<>=!&|]|$))", lambda m: f"`{m[1]}` is an action, and stands in the row's `do`; a guard is an expression"),
    _of(r"^else$", "there is no `else`: leave `when` out, since a last row without a guard takes what is left"),
    _of(r"^([A-Za-z_]\w*)\s*\(", _no_function),
    _of(r"^[^=!<>]*[^=!<>]=[^=].*$", "`=` assigns, `==` compares"),
)

#: Habits in lines of stimuli.
_IN_STIMULI = (
    _CALL_OF_QP,
    _of(r"^(arm|disarm|rearm|say|defer|recall|flush|lifo|forward|subscribe|unsubscribe|locked)\b",
        lambda m: f"`{m[1]}` is an action of a chart and no stimulus"),
    _of("\ufeff|\xef\xbb\xbf", "the file begins with a byte order mark: save it as UTF-8 without one"),
    _of(r"\r$", "the line ends as Windows ends lines, with \\r\\n: save the file with \\n alone"),
    _of(r"[^\x00-\x7f]", _odd_letter),
    _of(r"#|//|/\*", "a comment stands on a line of its own, and begins with `#`"),
    _of(r"\t", "a tab: single spaces part tokens"),
    _of(r"^ | $", "no space stands at either end of a line"),
    _of(r"  ", "two spaces: single spaces part tokens"),
    _of(r"\([^)]* [^)]*\)", "no space stands within parentheses: write (1,2)"),
    _of(r"\w \(", "no space stands before a parenthesis: write GO(1)"),
    _of(r"^[^(]*,", "no comma stands between tokens, but for those within parentheses"),
    _of(r"\([^)]*[0-9]\.[0-9]", "numbers are whole: count in a smaller unit, as tenths"),
    _of(r"\b(margin|reserve) -", _negative),
    _of(r"^(post \w+) ((?:margin [0-9]+ |reserve [0-9]+ )+)([A-Za-z_]\w*(?:\(.*\))?)$",
        lambda m: f"margin and reserve stand behind the event: write `{m[1]} {m[3]} {m[2].strip()}`"),
    _of(r"^publish\b.*\bmargin\b", "`publish` has no margin: each subscriber's queue must have room, else it is an assertion"),
    _of(r"^(.*) (reserve [0-9]+) (margin [0-9]+)$", lambda m: f"the margin stands first: write `{m[1]} {m[3]} {m[2]}`"),
    _of(r"\+[0-9]", "numbers have no sign here"),
    _of(r"-[0-9]", lambda m: f"numbers have no sign here: write {m[0]} as its 64 bits, {2**64 - int(m[0][1:])}"),
    _of(r"0[xX]([0-9a-fA-F]+)", lambda m: f"numbers are decimal: write {int(m[1], 16)}"),
    _of(r"\b0[0-9]+\b", "a number has no leading zero"),
    _of(r"\(\)", "an event without parameters has no parentheses"),
    _of(r";$", "no `;` ends a line"),
    _of(r"^settle .", "`settle` stands alone: it waits until each queue is empty"),
    _of(r"^(wait|sleep|delay)\b", "time passes by `tick RATE`; `settle` waits until each queue is empty"),
    _of(r"^tick$", "a tick names its rate, 0 to 3: write `tick 0`"),
    _of(r"^(tick|settle|post|publish)\b.* (?:x ?[0-9]+|[0-9]+ times)$|^(tick) [0-9]+ [0-9]+$",
        lambda m: f"a line is one stimulus: write the `{m[1] or m[2]}` as often as it happens"),
    _of(r"^source\b", "a source begins with `source N` alone, where N is 1 for the first one, 2 for the next"),
    _of(r"^post (\w+)$", lambda m: f"a post names its object first: `post OBJECT {m[1]}`; without one, `publish {m[1]}`"),
    _of(r"^publish (\w+) (\w+)$", lambda m: f"`publish` names no object: `post {m[1]} {m[2]}`"),
    _of(r"^(Post|POST|Publish|PUBLISH|Tick|TICK|Settle|SETTLE|Source|SOURCE)\b", lambda m: f"write `{m[1].lower()}`"),
)


def habit_in_text(text: str, is_guard: bool) -> str:
    """What to write in the place of the text of an action or a guard; nothing where no habit is known."""
    if is_guard:
        return _advice(text, _IN_TEXTS + _IN_GUARDS)
    return _advice(text, _FIRST_IN_ACTIONS + _IN_TEXTS + _IN_ACTIONS) or _near(text, ACTIONS)


def habit_in_stimuli(line: str) -> str:
    """What to write in the place of a line of stimuli; nothing where no habit is known."""
    return _advice(line, _IN_STIMULI) or _near(line, _STIMULI)


def _near(text: str, words: tuple[str, ...]) -> str:
    """The word that the first one of a text may be meant as."""
    near = like(re.split(r"\W", text[:_ENDS], maxsplit=1)[0], list(words))
    return f"did you mean `{near}`?" if near else ""


def _advice(text: str, habits: tuple[Habit, ...]) -> str:
    # what is searched is short: the patterns take more than linear time
    seen = text if len(text) <= 2 * _ENDS else text[:_ENDS] + text[-_ENDS:]
    found = ((habit, habit.pattern.search(seen)) for habit in habits)
    return next((habit.advice(match) for habit, match in found if match), "")
