"""Which function calls which, as docs/MAINTAINING.md lists it: the calls from each `main` to the first read and the first step,
and who calls what reads a whole text, or makes one."""
import re
from collections import Counter

from parts.tokens import functions

# A command, how many calls there may be, and these by crate: `CRATE`: `CALL`, `CALL`; `CRATE`: `CALL`.
WAY = re.compile(r"^- `(\w+)([^`]*)` to the first \w+, at most (\d+): (`.*`)$", re.MULTILINE)
PART = re.compile(r"`(\w+)`: (`\w+`(?:, `\w+`)*)")
ONCE = re.compile(r"^- `(\w+)::(\w+)` by (`.*`)$", re.MULTILINE)


def calls_of(function):
    """How often a function calls another by its name, or by a method's; a call in a loop counts twice."""
    words, counts = function.words, Counter()
    inside = {place for at, opens, ends in function.each_loop() if words[at] != "|" for place in range(opens, ends)}
    for at, word in enumerate(words[:-1]):
        if words[at + 1] == "(" or words[at + 1 : at + 3] == ["::", "<"]:
            counts[words[at - 1] == ".", word] += 1 + (at in inside)
    return counts


class Calls:
    def __init__(self):
        self.files = []

    def add(self, crate, text, tokens):
        self.files.append((crate, text, [(it.name, calls_of(it)) for it in functions(tokens)]))

    def faults(self, page):
        for program, more, most, listed in WAY.findall(page):
            yield from (f"{program}{more}: {it}" for it in self.of_way(program, int(most), listed))
        for row in ONCE.findall(page):
            yield from self.of_callers(*row)

    def of_way(self, program, most, listed):
        calls = [(crate, name) for crate, names in PART.findall(listed) for name in re.findall(r"\w+", names)]
        for (crate, name), (_, called) in zip([(program, "main"), *calls], calls):
            found = [counts for of, _, own in self.files for it, counts in own if (of, it) == (crate, name)]
            if not any(counts[is_method, called] for counts in found for is_method in (True, False)):
                yield f"{crate}::{name} doesn't call {called}"
        if len(calls) > most:
            yield f"{len(calls)} calls, more than {most}"

    def of_callers(self, crate, name, listed):
        """Whether others call a function than those that are listed, or more than once."""
        imported = re.compile(rf"(?m)^use {crate}::(?:[^;]*\W)?{name}\b[^;]*;")
        asked, made = sorted(re.findall(r"`(\w+::\w+)`", listed)), []
        for of, text, own in self.files:
            if of == crate or imported.search(text):
                made += [f"{of}::{it}" for it, counts in own for _ in range(counts[False, name])]
        if asked != sorted(made):
            yield f"{crate}::{name} is called by {', '.join(sorted(made)) or 'nobody'}, and not by {', '.join(asked)}"
