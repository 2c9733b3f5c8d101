"""Whether `ticklab explore --json` answers what the second search finds (docs/FORMATS.md, Answers as JSON)."""
import collections
import functools
import json
import re

from . import machine
from .questions import asked_for, by_lines, by_options
from .searching import Search
from .telling import UNMET, first_line

SAFE, TRAPPED, MORE, STUCK = 0, 5, 6, 7
# By which steps is searched, and what is said of a schedule that is found.
SAID = {
    "single": "a process traps under this schedule, and under no shorter one:",
    "merged": "a process traps under this schedule:",
}
MINIMAL = "a process traps under this schedule, and where any one step is left out none does:"
# Of how many states it is asked which processes end.
MOST_STATES_OF_ENDS = 20000


def steps_of(text):
    """The steps of a schedule, such as `0*3 1`."""
    items = [[*map(int, item.split("*")), 1][:2] for item in text.split()]
    return [process for process, count in items for _ in range(count)]


def are_told(steps, answer):
    return [(step["step"], step["process"]) for step in answer["trace"]] == list(enumerate(steps, 1))


def told(status, answer, said):
    """The schedule and its trap, where this is said of it: its steps are told, and the last of them alone traps."""
    if (status, answer["answer"], answer.get("says")) != (TRAPPED, "trap", said):
        return [], None
    steps, traps = steps_of(answer["schedule"]), [step.get("event", {}).get("trap") for step in answer["trace"]]
    return (steps, traps[-1]) if are_told(steps, answer) and traps and not any(traps[:-1]) else ([], None)


def process_told(answer):
    """The process of which it is told that it doesn't meet its condition."""
    found = re.search("process ([0-9]+) is not ", answer.get("says", ""))
    return found and int(found[1])


def shown(status, answer):
    return f"{status} {json.dumps(answer)[:200]}"


class Judge:
    """`ask` gives the status, and the answer as Python has it, to some words and the text of a program."""

    def __init__(self, ask, text, limit):
        self.text, self.limit, program = text, limit, machine.Program(text)
        self.ask = lambda *words, lines=b"": ask(words, text + lines)
        self.found = {steps: Search(program, getattr(machine, steps), limit) for steps in SAID}
        # what comes of what is asked of ends, and how often
        self.verdicts = collections.Counter()

    def wrong(self):
        for steps, found in self.found.items():
            yield from self.trap(steps, found) if found.traps else self.no_trap(steps, len(found.depth))
        yield from self.first()
        single, merged = self.found.values()
        if single.traps:
            yield from self.untouched(single.every)
        elif len(single.depth) <= min(self.limit, MOST_STATES_OF_ENDS):
            yield from self.ends(single, len(merged.depth))

    def no_trap(self, steps, states):
        """What is wrong where no process traps in so many states; with one less for a limit there have to be more."""
        for limit in [self.limit] if states > self.limit else [self.limit, states, states - 1]:
            status, answer = self.ask(f"--{steps}", "--limit", str(limit))
            is_safe = states <= limit
            answered = "safe" if is_safe else "limit"
            wanted = {"answer": answered, "merged": steps == "merged", "never_lines": 0, "states": min(states, limit)}
            if (status, {**answer, "says": ""}) != (SAFE if is_safe else MORE, {**wanted, "says": ""}):
                yield f"{steps} steps, limit {limit}: found {shown(status, answer)}, wanted {wanted}"

    def trap(self, steps, found):
        status, answer = self.ask(f"--{steps}", "--limit", str(self.limit))
        # (there may come to be too many states where the trap is)
        if len(found.depth) > self.limit and status == MORE:
            return
        schedule, trap = told(status, answer, SAID[steps])
        length, last = found.moves.replayed(schedule)
        is_long = len(schedule) >= self.found["single"].steps
        if not (length == found.steps and is_long and last == trap and trap in found.traps):
            wanted = f"{found.steps} steps to one of {found.traps}"
            yield f"{steps} steps: found {shown(status, answer)}, in {length} steps to {last}, wanted {wanted}"

    def first(self):
        """What is answered otherwise by merged steps first, and by single ones where these find a trap."""
        limit = ("--limit", str(self.limit))
        found, by_merged = self.ask(*limit), self.ask("--merged", *limit)
        is_single = self.found["merged"].traps and by_merged[0] == TRAPPED
        wanted = self.ask("--single", *limit) if is_single else by_merged
        if found != wanted and not (is_single and self.is_minimal(*told(*found, MINIMAL))):
            yield f"merged steps first, limit {self.limit}: found {shown(*found)}"

    def is_minimal(self, schedule, trap):
        """That a schedule needs all its steps, as is told where there are too many states."""
        without = [schedule[:at] + schedule[at + 1 :] for at in range(len(schedule))]
        wanted = [(len(schedule), trap), *((len(steps), None) for steps in without)]
        return trap is not None and wanted == [self.found["single"].moves.replayed(it) for it in (schedule, *without)]

    def untouched(self, every):
        """Where a process traps, that is told whatever lines ask of ends."""
        question, *_ = by_lines(self.text, every)
        limit = ("--limit", str(self.limit))
        found = self.ask(*limit, lines=question.lines)
        if found != self.ask(*limit):
            yield f"{question.lines}: found {shown(*found)}"

    def ends(self, search, merged):
        """What is answered otherwise of who ends: by single steps, by so many merged states, which is what is asked first, and
        where one merged state less is allowed."""
        judge = Ends(search)
        for question in (*by_options(search.every), *by_lines(self.text, search.every)):
            self.verdicts[judge.verdict(question)] += 1
            for words, states in (("--single",), len(search.depth)), (("--merged",), merged), ((), merged):
                found = self.ask(*question.words, *words, lines=question.lines)
                if not judge.is_right(question, states, words == ("--single",), *found):
                    yield f"{' '.join((*question.words, *words))} {question.lines}: found {shown(*found)}"
            status, answer = self.ask(*question.words, "--limit", str(merged - 1), lines=question.lines)
            if (status, answer["answer"], answer.get("states")) != (MORE, "limit", merged - 1):
                yield f"{' '.join(question.words)} {question.lines}, limit {merged - 1}: found {shown(status, answer)}"


class Ends:
    """Whether an answer of who ends is right, by the states of single steps."""

    def __init__(self, search):
        self.search = search
        self.stuck, self.goes_on = functools.cache(search.stuck), functools.cache(search.goes_on)
        self.for_ever = {
            "not_wait_free": functools.cache(search.steps_for_ever), "not_alone": functools.cache(search.steps_alone_for_ever)}

    def asked(self, question, condition):
        return tuple(asked_for(question.asked.get(condition, "none"), self.search.every))

    def verdict(self, question):
        """The answer that is told first."""
        fair = self.asked(question, "fair")
        if self.stuck(fair) or self.goes_on(fair):
            return "stuck" if self.stuck(fair) else "endless"
        for answer, is_so in self.for_ever.items():
            if any(map(is_so, self.asked(question, UNMET[answer].condition))):
                return answer
        return "ends" if question.words or set(question.asked.values()) - {"none"} else "safe"

    def is_right(self, question, states, is_single, status, answer):
        """Of so many states, or what is told fits. By single steps no way to where somebody is stuck is shorter, nor to a fair
        loop."""
        verdict, process = self.verdict(question), process_told(answer)
        says = first_line(verdict, question.asked, states, is_single, process)
        if verdict not in UNMET:
            wanted = {"answer": verdict, "merged": not is_single, "never_lines": 0, "says": says, "states": states}
            return (status, answer) == (SAFE, wanted)
        if (status, answer["answer"], answer.get("says")) != (STUCK, verdict, says):
            return False
        schedule, lead_in, cycle = (steps_of(answer.get(part, "")) for part in ("schedule", "lead_in", "cycle"))
        if not are_told(schedule + lead_in + cycle, answer) or (lead_in and verdict != "stuck"):
            return False
        asked, running = self.asked(question, UNMET[verdict].condition), self.search.running_in(schedule + lead_in, cycle)
        if verdict in self.for_ever:
            # (alone, a process makes all steps of its cycle)
            return process in running.intersection(asked, cycle) and (verdict == "not_wait_free" or {process} == set(cycle))
        return running.issubset(cycle) and not running.isdisjoint(asked) and self.is_led(schedule, self.stuck(asked), is_single)

    def is_led(self, schedule, stuck, is_single):
        """That a schedule leads to where somebody is stuck, if somebody is, and by single steps no shorter one leads there."""
        end = self.search.led(schedule)
        shortest = min(self.search.depth[state] for state in stuck or [end])
        return (not stuck or end in stuck) and (not is_single or len(schedule) == shortest)
