"""Answers of `ticklab explore --json` that are wrong in one part: what is wrong, and what is made of a status and an answer."""
from .judging import MINIMAL, MORE, SAFE, SAID, STUCK, TRAPPED, steps_of


def other(**values):
    """The same answer where it has these keys, with what is made of their values."""

    def changed(status, answer):
        return status, {**answer, **{name: made(answer[name]) for name, made in values.items() if name in answer}}

    return changed


def with_status(status, other_status, answer=None):
    """Another status in place of one, with another answer where there is one."""
    return lambda found, told: (other_status, answer or told) if found == status else (found, told)


def with_steps(change, status=TRAPPED, part="schedule"):
    """Another schedule, or what repeats, of an answer of this status; with the steps that it then has."""

    def changed(found, answer):
        if found != status or part not in answer:
            return found, answer
        last, answer = answer["trace"][-1:], traced({**answer, part: " ".join(map(str, change(steps_of(answer[part]))))})
        if status == TRAPPED and answer["trace"]:
            answer["trace"][-1]["event"] = last[0]["event"]
        return found, answer

    return changed


def traced(answer):
    """The same answer with the steps that it has."""
    steps = [step for part in ("schedule", "lead_in", "cycle") for step in steps_of(answer.get(part, ""))]
    return {**answer, "trace": [{"process": process, "step": number} for number, process in enumerate(steps, 1)]}


def turned(steps):
    return [process ^ 1 for process in steps]


SAFE_ANSWER = {"answer": "safe", "merged": False, "never_lines": 0, "says": "", "states": 9}
MORE_ANSWER = {**SAFE_ANSWER, "answer": "limit"}
OTHER_TRAP = {"Zero": "Below", "Below": "Index", "Index": "Overflow", "Overflow": "Zero"}
# The form in which `with_steps` tells is taken.
RIGHT = with_steps(list)

CASES = (
    ("there is a state more", other(states=lambda it: it + 1)),
    ("there is a state less", other(states=lambda it: it - 1)),
    ("merged states aren't told as such", other(merged=lambda _: False)),
    ("states are told as merged", other(merged=lambda _: True)),
    ("a trap is taken for none", with_status(TRAPPED, SAFE, SAFE_ANSWER)),
    ("a trap is taken for too many states", with_status(TRAPPED, MORE, MORE_ANSWER)),
    ("the limit is met where it isn't", with_status(SAFE, MORE, MORE_ANSWER)),
    ("the limit isn't met where it is", with_status(MORE, SAFE, SAFE_ANSWER)),
    ("a trap has the status of none", with_status(TRAPPED, SAFE)),
    ("the limit has the status of no trap", with_status(MORE, SAFE)),
    ("a schedule lacks its first step", with_steps(lambda it: it[1:])),
    ("a schedule lacks its last step", with_steps(lambda it: it[:-1])),
    ("a schedule has a step behind its trap", with_steps(lambda it: it + it[-1:])),
    ("a schedule has a step too many", with_steps(lambda it: [it[0] ^ 1, *it])),
    ("a schedule is of other processes", with_steps(turned)),
    ("a trap has another name", other(trace=lambda it: [
        *it[:-1], {**it[-1], "event": {"trap": OTHER_TRAP.get(it[-1].get("event", {}).get("trap"))}}])),
    ("each step is told to trap", other(trace=lambda it: [{**step, "event": {"trap": "Zero"}} for step in it])),
    ("a step isn't told", other(trace=lambda it: it[:1] + it[2:])),
    ("a step is told of another process", other(trace=lambda it: [{**it[0], "process": it[0]["process"] ^ 1}, *it[1:]])),
    ("a shortest schedule isn't told as one", other(says=lambda it: it.replace(SAID["single"], SAID["merged"]))),
    ("a merged schedule is told as a shortest one", other(says=lambda it: it.replace(SAID["merged"], SAID["single"]))),
    ("a shortest schedule is told to need all its steps", other(says=lambda it: it.replace(SAID["single"], MINIMAL))),
    ("those who can't end are told to", with_status(STUCK, SAFE)),
    ("those who can end are told not to", other(answer=lambda it: {"ends": "stuck", "endless": "stuck"}.get(it, it))),
    ("those who end may not", other(answer=lambda it: {"ends": "endless"}.get(it, it))),
    ("those who may not end do", with_status(STUCK, SAFE, {**SAFE_ANSWER, "answer": "ends"})),
    ("a way to where none ends lacks its last step", with_steps(lambda it: it[:-1], STUCK)),
    ("a way to where none ends is of other processes", with_steps(turned, STUCK)),
    ("what repeats lacks its last step", with_steps(lambda it: it[:-1], STUCK, "cycle")),
    ("what repeats is of one process", with_steps(lambda it: it[:1] * 20, STUCK, "cycle")),
)
