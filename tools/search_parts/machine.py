"""A program by its places, what a step of a process does (docs/LANGUAGE.md), and a merged one (docs/EXPLORING.md, Merged
steps).

The place of a process is the number of its next statement.
"""
import operator
from collections import namedtuple

from bent_parts.tokens import text_of
from bent_parts.tree import Reader

GREATEST = 4294967295
# The place of a process that has nothing left, and of one that has ended.
NOTHING_LEFT, ENDED = -1, -2
# Which statements of others notice one, or change what it does; of registers, those of the same row. Nobody else notices those
# that don't stand here; and how many of these a merged step takes along.
MET_BY = {
    "get": ("put",), "put": ("get",), "scan": ("stamp", "clear"), "stamp": ("stamp", "clear", "scan"),
    "clear": ("stamp", "clear", "scan"),
}
MOST_PRIVATE = 1000

# The tickets of the processes, and the register rows.
Shared = namedtuple("Shared", "tickets rows")
# What a process has for itself: its number, its place, its variables, its scans, and what it has given out.
Own = namedtuple("Own", "me place variables scans outputs")
# Both parts after a step, the trap that stopped it, if one did, and how many single steps it is.
Step = namedtuple("Step", "own shared trap length")


class Trap(Exception):
    """What stops a process, by its name."""


class Program:
    """How many processes, variables, scans and register rows there are, and the statements by their places, with the places
    that each goes to: of a branch or a loop where its test is met, and where not."""

    def __init__(self, given):
        """The program that an accepted text is."""
        self.processes, (self.variables, self.scans, self.rows), body = Reader(text_of(given)).program()
        self.statements, self.goes = [], []
        self.first = self.laid(body, NOTHING_LEFT)
        self.stills = {NOTHING_LEFT: frozenset(), ENDED: frozenset(), **{at: self.still(at) for at in range(len(self.goes))}}

    def laid(self, block, after):
        """The first place of a block, behind which `after` comes."""
        for statement in reversed(block):
            place = len(self.statements)
            self.statements.append(statement)
            self.goes.append([])
            inside = place if statement.word == "while" else after
            blocks = [self.laid(it, inside) for it in statement.blocks]
            self.goes[place] = blocks if statement.word == "if" else [*blocks, after]
            after = place
        return after

    def still(self, place):
        """What may still come from a place on and meet others: words of statements, each with its register row."""
        places = [place]
        for at in places:
            places += [it for it in self.goes[at] if it not in places and it != NOTHING_LEFT]
        statements = [self.statements[at] for at in places]
        return frozenset((it.word, row_of(it)) for it in statements if it.word in MET_BY)

    def begun(self):
        none = (0,) * self.processes
        owns = [Own(me, self.first, (0,) * self.variables, (none,) * self.scans, ()) for me in range(self.processes)]
        return Shared(none, (none,) * self.rows), owns


def row_of(statement):
    return statement.names[-1] if statement.word in ("get", "put") else None


OPERATORS = {
    "+": operator.add, "-": operator.sub, "*": operator.mul, "/": operator.floordiv, "%": operator.mod,
    "<": operator.lt, "<=": operator.le, "==": operator.eq, "!=": operator.ne,
}
LEAVES = {
    "number": lambda own, processes, number: number,
    "variable": lambda own, processes, number: own.variables[number],
    "me": lambda own, processes: own.me,
    "n": lambda own, processes: processes,
}


def values_of(expressions, own, processes):
    return [value_of(expression, own, processes) for expression in expressions]


def value_of(expression, own, processes):
    kind, *parts = expression
    if kind in LEAVES:
        return LEAVES[kind](own, processes, *parts)
    left, right = values_of(parts, own, processes)
    if kind in "/%" and right == 0:
        raise Trap("Zero")
    value = int(OPERATORS[kind](left, right))
    if not 0 <= value <= GREATEST:
        raise Trap("Below" if value < 0 else "Overflow")
    return value


def replaced(values, place, value):
    return (*values[:place], value, *values[place + 1 :])


def at(values, process):
    if process >= len(values):
        raise Trap("Index")
    return values[process]


# What a statement writes: in which of both parts, where, and which value. Each takes both parts, the numbers of the names and
# the values of the expressions, as they stand in the text.
WRITES = {
    "=": lambda own, shared, variable, value: ("variables", variable, value),
    "get": lambda own, shared, variable, row, process: ("variables", variable, at(shared.rows[row], process)),
    "put": lambda own, shared, row, value: ("rows", row, replaced(shared.rows[row], own.me, value)),
    "stamp": lambda own, shared: ("tickets", own.me, max(shared.tickets) + 1),
    "clear": lambda own, shared: ("tickets", own.me, 0),
    "scan": lambda own, shared, into: ("scans", into, shared.tickets),
    "copy": lambda own, shared, into, taken: ("scans", into, own.scans[taken]),
    "older": lambda own, shared, variable, taken, first, second: (
        "variables", variable, int(at(own.scans[taken], first) < at(own.scans[taken], second))),
    "held": lambda own, shared, variable, taken, process: ("variables", variable, int(at(own.scans[taken], process) != 0)),
    "out": lambda own, shared, value: ("outputs", len(own.outputs), value),
}


def written(part, field, place, value):
    return part._replace(**{field: replaced(getattr(part, field), place, value)}) if field in part._fields else part


def single(program, own, shared, _others=()):
    if own.place < 0:
        return Step(own._replace(place=ENDED), shared, None, 1)
    statement, goes = program.statements[own.place], program.goes[own.place]
    try:
        values = values_of(statement.expressions, own, program.processes)
        writes = WRITES[statement.word](own, shared, *statement.names, *values) if statement.word in WRITES else None
    except Trap as trap:
        return Step(own, shared, str(trap), 1)
    if writes:
        own, shared = (written(part, *writes) for part in (own, shared))
    is_met = not statement.blocks or values[0] != 0
    return Step(own._replace(place=goes[0 if is_met else 1]), shared, None, 1)


def merged(program, own, shared, others):
    """A step, of which `others` says what each other process may still do."""
    step = single(program, own, shared)
    while step.length <= MOST_PRIVATE and not step.trap and is_private(program, step.own, others):
        step = single(program, step.own, step.shared)._replace(length=step.length + 1)
    return step


def is_private(program, own, others):
    """That a process has a next step, and that no other sees it any more or changes what it does."""
    if own.place < 0:
        return own.place == NOTHING_LEFT
    statement = program.statements[own.place]
    if statement.word == "get":
        # (only who has the value may change it)
        try:
            others = [at(others, *values_of(statement.expressions, own, len(others)))]
        except Trap:
            return True
    met = {(word, row_of(statement)) for word in MET_BY.get(statement.word, ())}
    return met.isdisjoint(frozenset().union(*others))


def ranks(tickets):
    """For each ticket that is held, how many of those that are held aren't above it."""
    return tuple(sum(0 < other <= ticket for other in tickets) for ticket in tickets)


def canonical(own, shared, outputs=()):
    """Both parts with ranks for tickets, which are those of each scan for itself, and with other outputs, if any."""
    return own._replace(scans=tuple(map(ranks, own.scans)), outputs=outputs), shared._replace(tickets=ranks(shared.tickets))
