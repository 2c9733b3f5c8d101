"""The first line of what `ticklab explore` tells of ends (docs/EXPLORING.md, explore --ends)."""
from collections import namedtuple

from .questions import asked_for

QUIET, NOBODY = "no process traps under any schedule", "no process is asked whether it can end"
# By its condition, what is told where it is met.
MET = {
    "fair": "{who} can still end after every schedule, and will if each that runs steps again and again",
    "wait_free": "{who} {are} wait-free: whoever of them steps again and again ends, though others stop anywhere",
    "alone": "{who} {are} obstruction-free: after any schedule each of them ends once it steps alone",
}
UNFAIR = "{who} can still end after every schedule, but not under this one, in which each that runs steps again and again:"
Unmet = namedtuple("Unmet", "condition says")
# By the answer, which condition isn't met, and what is told then.
UNMET = {
    "stuck": Unmet("fair", "after this schedule no further steps end {who}{shorter}:"),
    "endless": Unmet("fair", UNFAIR),
    "not_wait_free": Unmet(
        "wait_free", "process {process} is not wait-free: under this schedule it steps again and again and never ends:"),
    "not_alone": Unmet(
        "alone", "process {process} is not obstruction-free: after this schedule it steps alone and never ends:"),
}


def named(who):
    """Those whom these words of a line name, in words."""
    if who in ("all", "none"):
        return "all processes" if who == "all" else "no process"
    *more, last = map(str, asked_for(who, ()))
    return f"processes {', '.join(more)} and {last}" if more else f"process {last}"


def met(condition, who):
    return MET[condition].format(who=named(who), are="is" if named(who).startswith("process ") else "are")


def first_line(answer, asked, states, is_single, process):
    """What is told first where these are asked under each condition: of one process, or of so many states."""
    unmet = UNMET.get(answer)
    named_by = {condition: who for condition in MET if (who := asked.get(condition, "none")) != "none"}
    before = [condition for condition in named_by if not unmet or [*MET].index(condition) < [*MET].index(unmet.condition)]
    told = [met(condition, asked[condition]) for condition in before] if named_by else [NOBODY] * (answer == "ends")
    if unmet:
        who, shorter = named(asked.get(unmet.condition, "none")), ", and after each shorter one some do" if is_single else ""
        return "; ".join([QUIET, *told, unmet.says.format(who=who, shorter=shorter, process=process)])
    kind = f"{'' if is_single else 'merged '}state{'s' if states != 1 else ''}"
    return f"{'; '.join([QUIET, *told])} ({states} {kind})"
