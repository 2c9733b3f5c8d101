"""Answers of who ends that are wrong in one part: what is wrong, what asks so that it is, and the program that shows it, if it
stands here. It asks by what asks rightly, which takes words and a text, and gives a status and an answer.
"""
from .judging import STUCK, process_told
from .questions import OPTIONS, WORDS, condition_of, lines_in
from .telling import QUIET, UNMET, first_line
from .wrong_answers import traced

# What is told where all end, and of each condition where somebody doesn't.
ENDS, NAMES = ("ends",), {"fair": "endless", "wait_free": "not_wait_free", "alone": "not_alone"}


def is_one(words):
    return any(word.startswith("--ends=") for word in words)


def retold(name, found, words, asked):
    """What is found of ends, told as another answer of those who are asked."""
    status, answer = found
    says = first_line(name, asked, answer.get("states"), "--single" in words, process_told(answer) or 0)
    return status, {**answer, "answer": name, "says": says}


def asked_by(change, only):
    """Other words are asked than those of a command line that names a condition; told is only what is one of these answers."""

    def asked(ask, words, text):
        condition = condition_of(words)
        others = b"#!" not in text and condition and change(condition, words)
        found = ask(others or words, text)
        if not others or found[1]["answer"] not in only:
            return ask(words, text)
        who = next((word[7:] for word in words if is_one([word])), "all")
        return retold("ends" if only == ENDS else NAMES[condition], found, words, {condition: who})

    return asked


def asked_as(condition, other, only):
    def others(asked, words):
        ends = () if is_one(words) or "--ends" in words else ("--ends",)
        return asked == condition and (*ends, *(word for word in words if word not in OPTIONS[condition]), *OPTIONS[other])

    return f"{condition} is asked as {other}, and told is {' or '.join(only)}", asked_by(others, only), None


def unasked(condition, only):
    """The line of a condition isn't asked, and is told as if it were met."""

    def asked(ask, words, text):
        lines = lines_in(text)
        line = f"#! ends {lines.get(condition)}{WORDS[condition]}\n".encode()
        found = ask(words, text.replace(line, b""))
        if condition_of(words) or lines.get(condition, "none") == "none" or found[1]["answer"] not in only:
            return ask(words, text)
        return retold(found[1]["answer"], found, words, lines)

    return f"a line of {condition} isn't asked, and told is {' or '.join(only)}", asked, None


def first_of_all(_condition, words):
    return not is_one(words) and ("--ends=0", *(word for word in words if word != "--ends"))


def all_for_one(_condition, words):
    return is_one(words) and tuple("--ends" if is_one([word]) else word for word in words)


def changed(only, **values):
    """Of these answers others have these keys, with what is made of their values."""

    def asked(ask, words, text):
        status, answer = ask(words, text)
        made = {name: change(answer[name]) for name, change in values.items() if answer["answer"] in only}
        return status, {**answer, **made}

    return asked, None


# Process 0 spins, and 1 ends. Both spin. 0 reads what 1 has put until it finds the same twice; 1 changes it until 2 has come.
ONE = b"processes 2; var y; reg r; begin if me { } else { while (y == 0) { y = get r 0; } } end"
BOTH = b"processes 2; var y; reg r; begin while (y == 0) { y = get r 0; } end"
MOVED = b"""processes 3; var x, y, z; reg r, q; begin
if (me == 2) { put q 1; } else { if me { while (y == 0) { z = (1 - z); put r z; y = get q 2; } }
else { x = 1; while (x != y) { x = y; y = get r 1; } } } end"""


def told(text, process, condition, schedule, cycle, **more):
    """This process never ends under this condition, as is told where process 0 is asked, or all are."""
    says = f"{QUIET}; {UNMET[NAMES[condition]].says.format(process=process)}"
    return text, (STUCK, traced({"answer": NAMES[condition], "says": says, "schedule": schedule, "cycle": cycle, **more}))


def by_hand(given, *words):
    """What is answered to these words of a program."""
    text, found = given
    return lambda ask, asked, program: found if (asked, program) == (words, text) else ask(asked, program), text


ALONE, WAIT_FREE = ("--ends=0", "--alone", "--single"), ("--ends=0", "--wait-free", "--single")
_, (_, LOOP) = told(ONE, 0, "alone", "0", "0*2")
RIGHT = (
    by_hand(told(ONE, 0, "alone", "0", "0*2"), *ALONE), by_hand(told(ONE, 0, "alone", "0 1", "0*4"), *ALONE),
    by_hand(told(ONE, 0, "wait_free", "0", "0*2"), *WAIT_FREE),
    by_hand(told(ONE, 0, "wait_free", "0 1*2", "0 1 0"), *WAIT_FREE),
    by_hand(told(BOTH, 0, "alone", "1", "0*2"), *ALONE), by_hand(told(BOTH, 1, "alone", "", "1*2"), *ALONE[1:]),
)
CASES = (
    *(asked_as(*it, ENDS) for it in (("fair", "alone"), ("wait_free", "fair"), ("wait_free", "alone"), ("alone", "fair"))),
    *(asked_as("fair", it, (NAMES[it],)) for it in ("wait_free", "alone")),
    *(asked_as("alone", it, (NAMES[it],)) for it in ("fair", "wait_free")),
    *(unasked(condition, ENDS) for condition in OPTIONS),
    *(unasked(condition, (NAMES[it],)) for condition, it in (("fair", "wait_free"), ("fair", "alone"), ("wait_free", "alone"))),
    ("process 0 is asked in place of all", asked_by(first_of_all, ENDS), None),
    ("all are asked in place of one", asked_by(all_for_one, tuple(UNMET)), None),
    ("there is a state more where all end", *changed(ENDS, states=lambda it: it + 1)),
    ("states are told as others where all end", *changed(ENDS, merged=lambda it: not it)),
    ("more is said where all end", *changed(ENDS, says=lambda it: it.replace(" (", " or not ("))),
    ("more is said where one doesn't end", *changed(UNMET, says=lambda it: it.replace(":", " or not:"))),
    ("one that isn't asked steps alone for ever", *by_hand(told(BOTH, 1, "alone", "", "1*2"), *ALONE)),
    ("one that isn't asked steps for ever", *by_hand(told(BOTH, 1, "wait_free", "", "1*2"), *WAIT_FREE)),
    ("one that has ended steps alone for ever", *by_hand(told(ONE, 1, "alone", "0 1*2", "1"), *ALONE[1:])),
    ("one that has ended steps for ever", *by_hand(told(ONE, 1, "wait_free", "0 1*2", "1"), *WAIT_FREE[1:])),
    ("beside one that steps alone another steps", *by_hand(told(ONE, 0, "alone", "0 1*2", "0 1 0"), *ALONE)),
    ("another makes all steps of a cycle", *by_hand(told(ONE, 0, "wait_free", "0 1*2", "1"), *WAIT_FREE)),
    ("a cycle has no steps", *by_hand(told(ONE, 0, "wait_free", "0", ""), *WAIT_FREE)),
    ("a cycle alone doesn't lead back", *by_hand(told(ONE, 0, "alone", "0", "0"), *ALONE)),
    ("a cycle doesn't lead back", *by_hand(told(ONE, 0, "wait_free", "0", "0 1 0"), *WAIT_FREE)),
    ("steps lead on to a cycle", *by_hand(told(ONE, 0, "wait_free", "", "0*2", lead_in="0"), *WAIT_FREE)),
    ("no steps are told of a cycle", *by_hand((ONE, (STUCK, {**LOOP, "trace": []})), *ALONE)),
    ("one steps alone for ever where it ends", *by_hand(told(MOVED, 0, "alone", "0*3", "0*4"), *ALONE)),
)
