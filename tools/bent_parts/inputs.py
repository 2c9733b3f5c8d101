"""The inputs that are bent, with the commands that read them, and what is done to one place of an input."""
import itertools

from parts.rows import File
from parts.tool import TOP, read

ROWS = "answers/bent/inputs.txt"

# What a command answers to an input that is taken: its plain form, what its plain form is answered with, or that under
# the plain form of the schedule that its last word is.
FORM, SAME, PLAYED = "form", "same", "played"

# How an input is read: as a program, as a code or a program, or as stamps and clears of three processes.
PROGRAM, RUNNABLE, MOVES = "program", "runnable", "moves"
PROCESSES = 3

# Those that play a schedule, and what each command shows.
PLAYERS = ("source", "code", "lift", "drop")
SHOWS = {"check": FORM, "emit": SAME, "run": SAME, "order": SAME, **dict.fromkeys(PLAYERS, PLAYED)}
CHECK, ORDER = ((("check",), FORM),), ((("order", b"%d" % PROCESSES), SAME),)
OF_CODES = ((("code", b"0*20 1*20"), PLAYED), (("run", b"1"), SAME))


def inputs():
    """The inputs of the rows: how each is read, the command lines with what they show, and the input."""
    for given, rows in itertools.groupby(File(TOP, ROWS).rows(read(ROWS)), lambda row: row.given):
        lines = [((row.words[1].decode(), *row.words[2:]), SHOWS[row.words[1].decode()]) for row in rows]
        commands = {words[0] for words, _ in lines}
        yield MOVES if "order" in commands else RUNNABLE if commands == {"code", "run"} else PROGRAM, lines, given


# A program, and schedules of its processes. The longest has ten million steps.
TWO = b"processes 2; begin out 7; end"
SCHEDULES = (b" 0 1*3\r\n00*02\t1 ", b"1*999999 0*9 1")

# How many of the bytes that stand at the place are kept, what follows them, and how many of those bytes are left out then.
ALL = 1_000_000
BENDS = (
    # cut off, dropped, doubled
    (0, b"", ALL),
    (0, b"", 1),
    (1, b"", 0),
    # replaced
    *((0, byte.encode("latin-1"), 1) for byte in "\0\n #*019(}=cnsx\xff"),
    # before it, a comma, a vertical tab, a carriage return, and a character that stands in comments alone
    *((0, put, 0) for put in (b",", b"\x0b", b"\r", b"\xc3\xa9")),
    # a mark of the order of bytes
    (0, b"\xef\xbb\xbf", 0),
    # no characters: a later byte alone, a first one alone, one that is too long, a half of a pair, one above the last,
    # one that is cut off
    *((0, put, 0) for put in (b"\x80", b"\xc3", b"\xc0\x80", b"\xed\xa0\x80", b"\xf4\x90\x80\x80", b"\xf0\x9f\x98")),
)


def all_bent(text):
    """Each text that comes of it, and whether that is only cut off."""
    found = {}
    for place in range(len(text) + 1):
        for kept, put, left_out in BENDS:
            found.setdefault(text[: place + kept] + put + text[place + left_out :], left_out == ALL)
    return found
