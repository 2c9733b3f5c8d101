"""Finds what may take memory or time out of nothing, by the rules of docs/TESTING.md (Costs). It reads one function after the
other: what a function costs that a loop calls isn't seen."""
import re

from parts.tokens import Function, closing, functions, parts, past

GROWS = {"push", "push_str", "push_reserved", "extend", "extend_from_slice", "append", "insert", "resize", "reserve"}
COPIES = {"clone", "try_clone", "from_slice", "from_str", "to_vec", "to_string", "to_owned", "into_owned", "concat"}
MADE = (["Vec", "::", "new"], ["String", "::", "new"], ["Vec", "::", "with_capacity"], ["BTreeMap", "::", "new"])
# What grows to just a size, what is never dropped, and what has no end.
NEVER = {"reserve_exact", "try_reserve_exact", "shrink_to", "shrink_to_fit", "forget", "leak", "into_raw", "ManuallyDrop"}
NEVER |= {"repeat_with", "repeat_n", "from_fn", "successors"}
# What makes a number of turns far larger than what it is given.
TURNED = re.compile("_mul|pow|wrapping_|rotate_|swap_bytes|reverse_bits|to_bits")
MOST = 255
RANGES = ("..", "..=")

# What grows in a loop though it isn't answered: why it stays small.
HELD = {
    "crates/code_text/src/reading.rt": {"line"},  # of one line: it is cleared before each
    "crates/searches_fairness/src/alone.rt": {"steps"},  # a step of one process for each place; all is answered
    "crates/searches_fairness/src/fixed_point.rt": {"steps"},  # a loop and what leads into it: all is answered
    "crates/searches_fairness/src/round_robin.rt": {"steps"},  # a round of the processes for each place; part is answered
    "crates/searches_hunt/src/vain.rt": {"all"},  # an entry for each process
}
# Functions with one loop that has a large number, or of which no argument says how often it runs: what ends it.
TURNS = {
    "crates/code_text/src/reader.rt": {"number"},  # the digits; the number is what words are cut to
    "crates/searches_explore/src/needless.rt": {"slot_of", "go_along"},  # the words; the steps; the numbers cut it short
    "crates/stamp_calls/src/calls.rt": {"stamp"},  # a try that won; it is counted as a function that may wait
    "crates/searches_fairness/src/components.rt": {"component_ranks"},  # the steps of all states, of each one turn
    "crates/searches_hunt/src/shrinking.rt": {"in_pieces", "without_items"},  # sizes that are halved; the schedule
    "crates/searches_parallel/src/on_processors.rt": {"first_fault"},  # the runs asked for: only the pieces are a constant
    "crates/searches_states/src/fewest.rt": {"ways_on"},  # the steps that the search kept, of each one turn
    "crates/ticketc_io/src/reading.rt": {"read_input"},  # the input; a clause says how often it is asked
    "crates/ticketc_io/src/writing.rt": {"write_text"},  # the text, or so many interruptions
    "crates/ticklab_line/src/commands.rt": {"command_line"},  # the commands that there are
    "crates/tick_syntax/src/lexer.rt": {"read_tokens"},  # the text: each turn reads a token
    "crates/tick_syntax/src/parser.rt": {"statements", "names"},  # the tokens: each turn reads some
}
# What bounds how deep a call goes, the functions that call themselves, and those that call each other, which are marked by
# `#[cycle(NAME)]`: the toolchain refuses a cycle without that.
BRACKETS = "the brackets open at once: at most 64 of a text"
LEVELS = "the levels of a property: at most 64, with 8 quantifiers"
PROCESSES = "the processes: at most 6"
THREADS = "the threads: at most 64"
OTHERS = "nothing: this is what another type, or the type itself beside a trait, has by the same name"
RECURSIONS = {
    "crates/base/src/registers.rt": (OTHERS, "get", ""),
    "crates/language_properties/src/asks.rt": (LEVELS, "asks", ""),
    "crates/language_properties/src/value.rt": (LEVELS, "value_in", "decide sum_of"),
    "crates/language_questions/src/lines.rt": (PROCESSES, "", "listed next_listed"),
    "crates/language_questions/src/reader.rt": (
        LEVELS, "", "process asked older brackets named operand link chain rest over property inside",
    ),
    "crates/searches_explore/src/machine.rt": (OTHERS, "has_stopped", ""),
    "crates/searches_explore/src/places.rt": (BRACKETS, "", "add_block add_statement"),
    "crates/searches_explore/src/private_steps.rt": (OTHERS, "advance has_stopped", ""),
    "crates/searches_explore/src/still.rt": (BRACKETS, "", "is_in_block is_in is_inside rows_in rows_of"),
    "crates/searches_parallel/src/sharing.rt": (THREADS, "side_by_side", ""),
    "crates/tick_kinds/src/names.rt": (BRACKETS, "expression", "statement block"),
    "crates/tick_lower/src/emitter.rt": (BRACKETS, "emit_expression", "emit_branch emit_repeat emit_statement emit_block"),
    "crates/tick_lower/src/length.rt": (BRACKETS, "expression_length", "statement_length block_length"),
    "crates/tick_run/src/gathering.rt": (PROCESSES, "run_jobs", ""),
    "crates/tick_source/src/machine.rt": (OTHERS, "step", ""),
    "crates/tick_source/src/process.rt": (OTHERS, "stamp clear", ""),
    "crates/tick_source/src/remaining.rt": (OTHERS, "first", ""),
    "crates/tick_source/src/value.rt": (BRACKETS, "value_of", ""),
    "crates/tick_syntax/src/parser.rt": (
        BRACKETS, "", "boxed pair brackets expression branch repeat statement statement_from statements block",
    ),
    "crates/tick_syntax/src/printer.rt": (BRACKETS, "push_expression", "push_statement push_braces push_block"),
    "crates/tick_syntax/src/terminals.rt": (OTHERS, "text", ""),
    "crates/ticklab/src/checking.rt": (THREADS, "side_by_side", ""),
    "crates/ticklab_verdicts/src/ends/wording.rt": (PROCESSES, "has_one push_marked push_numbers", ""),
    "crates/ticklab_trace/src/heads.rt": (BRACKETS, "past_expression", "add_block add"),
    "crates/ticklab_trace/src/links.rt": (BRACKETS, "", "add_block add size size_of"),
}

KEYWORDS = set("as break continue else false for if in let loop match move mut ref return true while".split())
# (`alloc` and `rt` say where memory and threads come from)
NO_NUMBER = KEYWORDS | set("alloc rt bool char i8 i16 i32 i64 str u8 u16 u32 u64 u128 usize".split())


def named(words):
    """The names of numbers among these words, each with the word before it and the one behind it."""
    for before, word, behind in zip(["", *words], words, [*words[1:], ""]):
        if word.isidentifier() and not word[0].isupper() and word not in NO_NUMBER:
            if before not in (".", "::", "'") and behind not in ("(", "!", "::"):
                yield word, before, behind


def names(words):
    return {word for word, _, _ in named(words)}


def number(word):
    digits = re.fullmatch(r"(?:0x([\da-fA-F_]+)|(\d[\d_]*))(?:[iu](?:\d+|size))?", word)
    if word == "MAX" or not digits:
        return MOST + 1 if word == "MAX" else None
    return int(digits[1], 16) if digits[1] else int(digits[2])


class Body(Function):
    """What a function does: its names with all that is given to them, and its loops."""

    def __init__(self, tokens, at):
        super().__init__(tokens, at)
        self.loops, self.values = [*self.each_loop()], {}
        for at, word in enumerate(self.words):
            if word == "=" and self.words[at - 1] not in tuple("=!<>") and self.words[at + 1] != "=":
                self.note(*self.sides(at))
        for at, opens, _ in self.loops:
            if self.words[at] == "for":
                self.note(*parts(self.words[at + 1 : opens], ("in",)))
        changed = {name for both, name in zip(zip(self.words, self.words[1:]), self.words[2:]) if both == ("&", "mut")}
        changed |= {self.words[at - 2] for at, word in enumerate(self.words) if word in GROWS}
        # The names that follow from no argument.
        self.fixed, before = set(self.values) - self.given - changed, None
        while before != self.fixed:
            before = self.fixed
            self.fixed = {name for name in before if not any(names(value) - before for value in self.values[name])}

    def sides(self, at):
        begin = at
        while self.words[begin - 1] not in (";", "{", "}", "=>", ","):
            begin -= 1
        left = self.words[begin:at]
        end = past(self.words, at + 1, ";)]}{" if left[:1] in (["if"], ["while"], ["else"]) else ";)]}")
        return parts(left[left.index("let") :], (":",))[0] if "let" in left else left, self.words[at + 1 : end]

    def note(self, left, right):
        for name in names(left):
            self.values.setdefault(name, []).append(right)

    def expanded(self, words, known, depth=3):
        """Some words with all that is given to those of their names that are known."""
        values = [value for name in sorted(names(words) & known) for value in self.values[name]] if depth else []
        return sum((self.expanded(value, known, depth - 1) for value in values), list(words))

    def answered(self):
        """The names that stand in what is answered, as they are: behind a `return`, and in the last expression that is in no
        loop."""
        words = self.words
        spans = [words[at : past(words, at, ";,}")] for at, word in enumerate(words) if word == "return"]
        at = begin = 1
        while at < len(words) - 1:
            is_block = words[at] == "{" and words[begin] in ("for", "while", "loop", "'", "if", "match")
            at = (closing(words, at) if words[at] in "([{" else at) + 1
            if words[at - 1] == ";" or is_block and words[at] not in ("else", "}", ".", "?"):
                begin = at
        inside = {place for at, _, closes in self.loops for place in range(at, closes)}
        spans.append([word for at, word in enumerate(words) if begin <= at and at not in inside])
        return {name for span in spans for name, before, behind in named(span) if before not in ("&", "mut") and behind != "."}

    def root(self, at):
        """The name at which the place begins whose call stands here, as `a` of `a.b.push`; none of a type's call. Where a bracket
        stands on the way, that is no name which may grow."""
        first = at
        while self.words[first - 1] == ".":
            first -= 2
        return {self.words[first]} if first < at else set()

    def bound(self, at, opens, closes):
        """The names that belong to one turn of a loop."""
        lets = [self.words[place : self.words.index("=", place)] for place in range(at, closes) if self.words[place] == "let"]
        heads = {"for": parts(self.words[at + 1 : opens], ("in",))[0], "|": self.words[at:opens]}
        return names(sum(lets, heads.get(self.words[at], [])))


def grown_in_loops(body, held):
    """The places in loops at which something grows, or is copied, that mustn't."""
    words, kept = body.words, body.answered() | held | body.given if body.loops else held
    for at, opens, closes in body.loops:
        own, inner = body.bound(at, opens, closes), [range(*it[1:]) for it in body.loops if at < it[0] < closes]
        for place in sorted(set(range(opens, closes)).difference(*inner)):
            call = words[place + 1 : closing(words, place + 1)] if words[place + 1] == "(" else []
            grown, copied = set(), set()
            if words[place] in GROWS and words[place - 1] == "." and call:
                grown = body.root(place)
                copied = names(call) & set(body.values) if grown <= own else set()
            elif words[place : place + 2] == ["&", "mut"] and any(it[:3] in MADE for it in body.values.get(words[place + 2], ())):
                grown = {words[place + 2]}
            elif words[place] in COPIES and call:
                copied = names(call) | body.root(place)
            if copied - own or grown - own - kept:
                yield place


def endless(body):
    """The places of loops and ranges of which no argument says how often they run."""
    words = body.words
    loops = [it for it in body.loops if words[it[0]] != "|"]
    heads = [(at, parts(words[at + 1 : opens], ("in",))[-1], words[at:closes]) for at, opens, closes in loops]
    for at, word in enumerate(words):
        inside = words[at + 1 : closing(words, at)] if word == "(" else []
        if len(parts(inside, RANGES)) == 2 and words[at + len(inside) + 2] == ".":
            heads.append((at, inside, []))
    for at, head, whole in heads:
        expanded, ends = body.expanded(head, set(body.values)), parts(head, RANGES)
        is_given = names(head) - body.fixed or len(ends) == 2 and all(len(it) == 1 and number(it[0]) is not None for it in ends)
        has_product = any(is_turned(*pair) for pair in zip(["", *expanded], expanded)) or words[at] != "while" and "!" in expanded
        numbers = [number(word) or 0 for word in expanded + body.expanded(whole, body.fixed)]
        if not is_given or has_product or max(numbers) > MOST:
            yield at


def is_turned(before, word):
    """Whether a word makes a number that is far larger than what it is given: a call, a shift or a product does."""
    is_factor = before not in KEYWORDS and (before[:1].isalnum() or before in (")", "]"))
    return TURNED.search(word) or (before, word) == ("<", "<") or word == "*" and is_factor


def calls_itself(body):
    """Whether a function calls itself, or what else has its name."""
    words, is_method = body.words, "self" in body.given
    for at, word in enumerate(words[:-1]):
        if word == body.name and words[at + 1] in ("(", "::"):
            first, before = words[max(at - 2, 0)], words[at - 1]
            is_path = before == "::" and (first == "Self" or first.islower())
            is_asked = before == "." and (first == "self" or is_method and first.isidentifier() and words[at - 3] != ".")
            if is_path or is_asked or before not in ("::", ".") and not is_method:
                return True
    return False


def costs_in(tokens, path):
    bodies = [it for it in functions(tokens, Body) if it.words]
    lines, (_, own, others) = [word.line for word in tokens if word in NEVER], RECURSIONS.get(path, ("", "", ""))
    for body in bodies:
        turns = sorted(set(endless(body)))
        told = turns[1:] if body.name in TURNS.get(path, ()) else turns
        lines += [body.words[at].line for at in [*told, *grown_in_loops(body, HELD.get(path, set()))]]
        is_known = body.name in own.split()
        if not is_known and (calls_itself(body) or body.is_in_cycle and body.name not in others.split()):
            lines.append(body.line)
    return lines
