"""What the text of a code is, or why it is none: the first fault, each place by what stands before it (docs/CODE.md)."""
import re
from collections import namedtuple

from .tokens import Refusal

# Each instruction with its operands, how many values it takes from the stack, and how many it then puts on it.
TABLE = """
Push VALUE 0 1 | Load VARIABLE 0 1 | Me 0 1 | Count 0 1 | Bin SIGN 2 1 | Store VARIABLE 1 0 | Get ROW VARIABLE 1 0 |
Put ROW 1 0 | LoadWord 0 0 | Next 0 0 | Exchange PLACE 0 0 | Scan SCAN 0 0 | Copy SCAN SCAN 0 0 |
Older SCAN VARIABLE 2 0 | Out 1 0 | JumpZero PLACE 1 0 | Jump PLACE 0 0 | Halt 0 0 | Clear 0 0 |
Held SCAN VARIABLE 1 0
"""
FORMS = {name: (operands, int(takes), int(gives)) for name, *operands, takes, gives in map(str.split, TABLE.split("|"))}
NOT_IN_FIRST = {"Clear", "Held"}
JUMPS, GO_ELSEWHERE = ("Jump", "JumpZero"), ("Jump", "Halt")
SIGNS = set("+ - * / % < <= == !=".split())
GREATEST = {"VALUE": 4294967295, "VARIABLE": 255, "SCAN": 255, "ROW": 255, "PLACE": 65535}
# The sizes of the first line: from which number to which; and of which an operand has to be below.
SIZES = ((1, 6), (0, 64), (0, 16), (0, 8))
SLOTS = {"VARIABLE": 1, "SCAN": 2, "ROW": 3}
MOST_INSTRUCTIONS = 65535
PLAIN = re.compile("0|[1-9][0-9]*")

Instruction = namedtuple("Instruction", "name operands takes gives numbers")


def code(text):
    """How many processes a verified code has; its text is the only one that it has."""
    first, *lines, last = text.split("\n") if "\n" in text else (text, None)
    version, sizes = header(first, last is not None)
    instructions = [instruction(line, at, version) for at, line in enumerate(lines, 2)]
    if last:
        raise Refusal("29 BadLine", len(lines) + 2)
    if len(instructions) > MOST_INSTRUCTIONS:
        raise Refusal("27 TooLong")
    if not instructions:
        raise Refusal("21 Empty")
    verify(instructions, sizes)
    return sizes[0], text.encode("latin-1")


def header(line, is_ended):
    name, version, *words = line.split(" ")
    sizes = [number(word) for word in words]
    is_so = (name, version) in (("tickcode", "1"), ("tickcode", "2")) and len(sizes) == len(SIZES)
    if not is_so or not is_ended or not all(low <= size <= high for size, (low, high) in zip(sizes, SIZES)):
        raise Refusal("29 BadLine", 1)
    return int(version), sizes


def number(word):
    return int(word) if PLAIN.fullmatch(word) else -1


def instruction(line, at, version):
    name, *words = line.split(" ")
    operands, takes, gives = FORMS.get(name, ([], 0, 0))
    is_so = name in FORMS and len(words) == len(operands) and all(map(is_spelled, operands, words))
    if not is_so or version == 1 and name in NOT_IN_FIRST:
        raise Refusal("29 BadLine", at)
    return Instruction(name, operands, takes, gives, [number(word) for word in words])


def is_spelled(operand, word):
    return word in SIGNS if operand == "SIGN" else 0 <= number(word) <= GREATEST[operand]


def verify(instructions, sizes):
    # How many values have to stand at a place: what the instruction before leaves where that goes on, or an earlier jump to it.
    heights, names, left, goes_on = {}, ["", *(it.name for it in instructions), ""], 0, True
    for at, here in enumerate(instructions):
        height = left if goes_on else heights.get(at, 0)
        left, goes_on = height - here.takes + here.gives, here.name not in GO_ELSEWHERE
        target = here.numbers[0] if here.name in JUMPS else None
        slots = [(number, SLOTS[operand]) for number, operand in zip(here.numbers, here.operands) if operand in SLOTS]
        # What is looked at, in this order.
        tests = (
            ("24 HeightsDiffer", heights.setdefault(at, height) != height),
            ("25 BadSlot", any(number >= sizes[size] for number, size in slots)),
            ("22 BadJump", target is not None and target >= len(instructions)),
            ("23 StackShort", height < here.takes),
            ("30 BadStamp", breaks_stamp(names, at, here, target)),
            ("24 HeightsDiffer", target is not None and heights.setdefault(target, left) != left),
            ("26 FallsOff", goes_on and at + 1 == len(instructions)),
        )
        for name, is_fault in tests:
            if is_fault:
                raise Refusal(name, at)


def breaks_stamp(names, at, here, target):
    """Whether the instructions of a stamp don't stand together, or there is a jump into one; names[at + 1] is that of a place."""
    last, name, following = names[at : at + 3]
    return {
        "LoadWord": following != "Next",
        "Next": last != "LoadWord" or following != "Exchange",
        "Exchange": last != "Next" or here.numbers != [at - 2],
    }.get(name, target is not None and names[target + 1 : target + 2] in (["Next"], ["Exchange"]))
