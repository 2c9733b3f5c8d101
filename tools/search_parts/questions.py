"""What is asked of ends (docs/EXPLORING.md, explore --ends): by options, and by lines `#! ends` behind a program."""
import re
from collections import namedtuple
from random import Random

# The conditions in the order in which they are told: the option of each, and the word at the end of its line.
OPTIONS = {"fair": (), "wait_free": ("--wait-free",), "alone": ("--alone",)}
WORDS = {"fair": "", "wait_free": " wait_free", "alone": " alone"}
# Of ten lines how many there are, and of ten of these how many name all, and how many none.
LINES, ALL, NONE = 7, 4, 1

# The words of a command line, the lines behind the program, and what stands behind `#! ends` for each condition that is asked.
Question = namedtuple("Question", "words lines asked")


def asked_for(who, every):
    """The processes that are named behind `#! ends`."""
    return list(every) * (who == "all") if who in ("all", "none") else sorted(set(map(int, who.split())))


def condition_of(words):
    """The condition under which a command line asks; None where it leaves that to lines."""
    named = [condition for condition, option in OPTIONS.items() if set(option).intersection(words)]
    return named[0] if named else "fair" if any(word.startswith("--ends") for word in words) else None


def lines_in(text):
    """What stands behind `#! ends` in a text, by the conditions."""
    lines = re.findall("^#! ends ([a-z]+|[0-9 ]*[0-9])( [a-z_]+)?$", text.decode(), re.MULTILINE)
    return {condition: who for condition, word in WORDS.items() for who, behind in lines if behind == word}


def by_options(every):
    """Of each condition whether all meet it, the first, and the last."""
    for condition, option in OPTIONS.items():
        yield Question(option or ("--ends",), b"", {condition: "all"})
        for process in sorted({every[0], every[-1]}):
            yield Question((f"--ends={process}", *option), b"", {condition: str(process)})


def by_lines(text, every):
    """Of lines that are drawn, for a text always the same: all of them; others; and with these, one condition by its option."""
    random = Random(text)

    def below(number):
        # (of all that draws, this alone draws the same in each version of Python)
        return int(random.random() * number)

    def drawn():
        kind = below(10)
        numbers = [str(below(len(every))) for _ in range(1 + below(min(6, len(every) + 1)))]
        return "all" if kind < ALL else "none" if kind < ALL + NONE else " ".join(numbers)

    def lines():
        conditions = sorted(OPTIONS, key=lambda _: random.random())
        asked = {condition: drawn() for condition in conditions if below(10) < LINES}
        return b"\n" + b"".join(f"#! ends {who}{WORDS[it]}\n".encode() for it, who in asked.items()), asked

    yield Question((), *lines())
    others, asked = lines()
    yield Question((), others, asked)
    condition, process = [*OPTIONS][below(len(OPTIONS))], below(len(every))
    yield Question(("--ends", *OPTIONS[condition]), others, {condition: asked.get(condition, "all")})
    yield Question((f"--ends={process}", *OPTIONS[condition]), others, {condition: str(process)})
