"""What a check says of the edits that were planted in it.

A check ends what it says of a function by a line `fn CRATE::PATH: ..`; notes on the goals that are open there stand
above it. An edit is refused where a goal of a function that it turns is open: none of the prover's tactics proves it,
tried by themselves or named in an answer, or a loop has no measure. What is owed elsewhere counts for nothing, since
a caller of a planted function has no proof either; nor does an answer that says something else than its goal.
"""
import re

END = re.compile(r"^(?:fn|impl|struct|trait|enum) (\S+): (.*)")
OPEN = re.compile(r"^note: (?:\./)?(src/\S+):(\d+):(\d+): .*it is not proved")
MEASURE = re.compile(r"^note: `decreases[\w-]*` of proofs/(\S+)/Invariants\.antt is yours to choose")
TACTIC = re.compile(r"^(?:\./)?proofs/(\S+)/\w+\.antt:\d+:\d+: error: `[^`]*`: `(?:search|omega|grind)`: ")
ERROR = re.compile(r"^(?:\./)?(src/\S+?):(\d+):\d+: .*\berror\b")
WAITS = re.compile(r"has not tried the goals of `[^`]*?::([^`]*)`")
JUDGED = re.compile(r"(?m)^(?:logic|only)=")


class Said:
    """What one check said: the open goals by proof, and the last line on each function by its path."""

    def __init__(self, text, proofs):
        self.text = text
        self.lines = text.split("\n")
        self.is_judged = bool(JUDGED.search(text))
        self.is_proved = "logic=proved" in text
        self.waits = set(WAITS.findall(text))
        self.goals, self.ends = {}, {}
        block = []
        for line in self.lines:
            end, at = END.match(line), MEASURE.match(line) or TACTIC.match(line)
            if OPEN.match(line):
                block.append(line)
            elif end:
                path = end[1].partition("::")[2]
                self.ends[path] = end[2]
                self.goals.setdefault(proofs.get(path, path), []).extend(block)
                block = []
            elif at:
                self.goals.setdefault(at[1].replace("/", "::"), []).append(line)

    def goal_of(self, edit):
        """The first open goal of a function that the edit turns, or, of a wide edit, whatever is no longer proved. Of a
        branch only the goals count that stand in it."""
        found = [goal for proof in sorted(edit.proofs()) for goal in self.goals.get(proof, [])]
        if edit.is_branch:
            found = [goal for goal in found if stands_in(goal, *edit.place())]
        if edit.is_wide and not self.is_proved:
            found += [goal for goals in self.goals.values() for goal in goals]
            found += [line for line in self.lines if ": error" in line]
        return found[0].removeprefix("note: ") if found else None

    def end_of(self, edit):
        """What the check says last of the functions that the edit turns."""
        return "; ".join(f"{path}: {self.ends[path]}" for path in sorted(edit.paths()) if path in self.ends)

    def is_answer_wrong(self, edit):
        """Whether an answer in a proof file of a function that it turns is no proof of its goal."""
        return any("which antt refuses" in self.ends.get(path, "") for path in edit.paths())

    def is_waiting(self, edit):
        """Whether the goals of a function that it turns were not tried, since a function below has no proof."""
        return bool(edit.paths() & self.waits)

    def error_at(self, edit):
        """The first error at the code that the edit wrote."""
        for line in self.lines:
            at = ERROR.match(line)
            if at and any(it.file == at[1] and it.first <= int(at[2]) <= it.last for it in edit.functions):
                return line
            if at and edit.is_wide and any(file == at[1] for file, *_ in edit.lines):
                return line
        return None

    def open_elsewhere(self, group):
        """Under which an open goal stands though nothing was planted there: none, while contracts are as they were."""
        planted = {proof for edit in group for proof in edit.proofs()}
        if any(edit.is_wide for edit in group):
            return []
        return sorted(proof for proof, goals in self.goals.items() if goals and proof not in planted)


def stands_in(goal, file, line, first, last):
    """Whether what is said of a goal names a place in these columns of a line."""
    at = OPEN.match(goal)
    return bool(at) and at[1] == file and int(at[2]) == line and first <= int(at[3]) <= last
