"""Edits that only add branches which return, and what of a function has to stand so that these are tried.

Whether such a wrong body is refused is said by the goals at what it adds. So a copy of the function has nothing after it in
its block, and of what it ensures only the clause that the edit names.
"""
import os
import re

BRACES = re.compile(r'"(?:[^"\\]|\\.)*"|//[^\n]*|\'(?:[^\'\\]|\\.)\'|[{}]', re.DOTALL)
LOOP = re.compile(r"\b(?:for|while|loop)\b")

# What stands for the rest of a block. It is called, and so it never returns.
REST = "planted_rest"


def branch_of(old, new):
    """The branches that a text has more than another, if these return and are all that it has more; else None. They stand
    before a statement, or in an arm of a `match` before what it answers."""
    is_arm = old.endswith(",") and new.endswith(" }")
    for before, after, opens in [(old, new, ""), *([(old[:-1], new[:-2], "{ ")] if is_arm else [])]:
        more = len(after) - len(before)
        for at in range(len(os.path.commonprefix([before, after])) + 1):
            piece = after[at : at + more]
            if more > 0 and after[at + more :] == before[at:] and piece.startswith(opens) and return_all(piece[len(opens) :]):
                return piece[len(opens) :].strip()
    return None


def return_all(text):
    """Whether a text is one or more branches, each of which ends by a `return`."""
    left = text.strip()
    while left.startswith("if ") and "{" in left:
        ends = closing(left, left.index("{") + 1)
        if ends is None or not ends_by_return(left[left.index("{") + 1 : ends]):
            return False
        left = left[ends + 1 :].strip()
    return not left and bool(text.strip())


def ends_by_return(block):
    depth, last, block = 0, 0, block.strip()
    for at, sign in enumerate(block[:-1]):
        depth += (sign in "({[") - (sign in ")}]")
        if sign == ";" and depth == 0:
            last = at + 1
    return block.endswith(";") and re.match(r"\s*return\b", block[last:]) is not None


def closing(text, start):
    """Where the block ends in which this place stands."""
    depth = 0
    for found in BRACES.finditer(text, start):
        depth += (found[0] == "{") - (found[0] == "}")
        if depth < 0:
            return found.start()
    return None


def without_rest(lines, at, column):
    """Lines, as many as before, in which a block ends after this place. (A loop has an invariant, which would lack it.)"""
    text = "\n".join(lines)
    start = sum(len(line) + 1 for line in lines[:at]) + column
    ends = closing(text, start)
    if ends is None or LOOP.search(text[start:ends]):
        return lines
    return f"{text[:start]} {REST}() {chr(10) * text.count(chr(10), start, ends)}{text[ends:]}".split("\n")


def with_clause(function, lines, name):
    """Lines of a function, as many as before, in which no other `ensures` than the one of this name is left."""
    clause = f"{function.indent}    "
    opens, left, is_left = function.body()[0], [], True
    for line in lines[:opens]:
        if line.startswith(clause) and not line.startswith(f"{clause} "):
            is_left = not line.startswith(f"{clause}ensures ") or line.startswith(f"{clause}ensures {name} {{")
        left.append(line if is_left else "")
    return left + lines[opens:]


def has_clause(function, name):
    """Whether a clause of this name stands among what a function ensures."""
    return any(line.startswith(f"{function.indent}    ensures {name} {{") for line in function.text)
