"""Searches that are wrong in one part: what is wrong, what stands in a module, and what is put in its place."""

OLDER = "at(own.scans[taken], first) < at(own.scans[taken], second)"
STAMP, HELD, METS = "max(shared.tickets) + 1", "at(own.scans[taken], process) != 0", "MET_BY = {"
VALUES, PUT = "for expression in expressions]", "replaced(shared.rows[row], own.me, value)"
RUNNING, WALKS = "running = (state for state in self.depth", "for state in self.depth:\n            walk"
PRIVATE = ("=", "copy", "held", "if", "older", "out", "while")

# By module.
WRONG = {
    "bent_parts/tree": (
        ("the names of a section are one", "] = count", "] = 0"),
    ),
    "search_parts/machine": (
        ("who was never scanned holds a ticket", "(none,) * self.scans",
         "(tuple(range(1, self.processes + 1)),) * self.scans"),
        ("who is in a loop doesn't come to what stands before", "if it not in places and", "if it not in places and it < at and"),
        ("tickets aren't renumbered",
         "return tuple(sum(0 < other <= ticket for other in tickets) for ticket in tickets)", "return tickets"),
        ("the greatest number is one greater", "GREATEST = 4294967295", "GREATEST = 4294967296"),
        ("a difference below 0 is 0", "operator.sub", "lambda left, right: max(0, left - right)"),
        ("a product wraps", "operator.mul", "lambda left, right: left * right % 4294967296"),
        ("a remainder by 0 is 0", 'if kind in "/%" and right == 0:',
         'if (kind, right) == ("%", 0):\n        return 0\n    if (kind, right) == ("/", 0):'),
        ("`<` is `<=`", "operator.lt", "operator.le"),
        ("`me` counts from 1", "processes: own.me,", "processes: own.me + 1,"),
        ("the right operand comes first", VALUES, f"{VALUES[:-1]}[::-1]][::-1]"),
        ("a number that is no process is the last one", 'raise Trap("Index")', "return values[-1]"),
        ("`put` writes nothing", PUT, "shared.rows[row]"),
        ("a stamp takes the greatest ticket", STAMP, "max(1, *shared.tickets)"),
        ("`clear` gives nothing up", '("tickets", own.me, 0)', '("tickets", own.me, shared.tickets[own.me])'),
        ("a scan leaves the own ticket out", "into, shared.tickets)", "into, replaced(shared.tickets, own.me, 0))"),
        ("a copy goes back", "into, own.scans[taken])", "taken, own.scans[into])"),
        ("`older` is so of the same ticket", OLDER, OLDER.replace("<", "<=")),
        ("`older` looks at the tickets of now", OLDER, OLDER.replace("own.scans[taken]", "shared.tickets")),
        ("who holds none is older than nobody", f"int({OLDER})", f"int({OLDER}) * min(1, own.scans[taken][first])"),
        ("`held` is turned", HELD, HELD.replace("!=", "==")),
        ("a test is met by 1 alone", "values[0] != 0", "values[0] == 1"),
        ("the blocks of an `if` are turned", "= blocks if", "= blocks[::-1] if"),
        ("who traps has ended", "Step(own, shared, str(trap), 1)", "Step(own._replace(place=ENDED), shared, None, 1)"),
        ("a merged step takes 1,001 along", "MOST_PRIVATE = 1000", "MOST_PRIVATE = 1001"),
        ("no end is taken along", "return own.place == NOTHING_LEFT", "return False"),
        ("`get` is private", '"get": ("put",)', '"get": ()'),
        ("`scan` is private", '"scan": ("stamp", "clear")', '"scan": ()'),
        ("nobody else does anything any more", "frozenset().union(*others)", "{None}"),
        ("`put` is met by `put`", '"put": ("get",)', '"put": ("put",)'),
        ("`stamp` isn't met by `scan`", '"stamp": ("stamp", "clear", "scan")', '"stamp": ("stamp", "clear")'),
        ("`get` of what nobody has is met", "others = [at(others, ", "_ = [at(others, "),
        *((f"`{word}` is shared", METS, f'{METS}"{word}": ("stamp", "clear", "scan"), ') for word in PRIVATE),
    ),
    "search_parts/searching": (
        ("the search goes on from the state that it saw last",
         "here = [after for state in here for after in self.further(state)]", "here += self.further(here.pop())"),
        ("all have ended where one has", "return all(self.moves.parts", "return any(self.moves.parts"),
        ("who steps for ever does so alone", RUNNING, f"return self.steps_alone_for_ever(process)\n        {RUNNING}"),
        ("who steps for ever lets nobody stop", RUNNING, f"return self.goes_on([process])\n        {RUNNING}"),
        ("who has ended steps for ever", "if not self.has_ended(state, [process]))", "if True)"),
        ("another steps for ever in place of one", "self.afters[state][process]] for", "self.afters[state][process - 1]] for"),
        ("steps lead back wherever they lead", "for before in self.before[state] if", "for before in self.depth if"),
        ("steps lead back nowhere", "for before in self.before[state] if", "for before in () if"),
        ("who comes back alone has ended", "ends[state] = self.has_ended(state, [process])", "ends[state] = True"),
        ("who steps alone does so from the start", WALKS, WALKS.replace("self.depth", "[self.moves.begun]")),
        ("who steps alone ends or all do", "return not all(ends.values())", "return not any(ends.values())"),
    ),
    "search_parts/judging": (
        ("who steps alone is told first", '"not_wait_free": functools', '"not_alone": 0, "not_wait_free": functools'),
        ("who may not end fairly is told last", "if self.stuck(fair) or self.goes_on(fair):", "if self.stuck(fair):"),
    ),
}
CASES = [(what, module, old, new) for module, rows in WRONG.items() for what, old, new in rows]
