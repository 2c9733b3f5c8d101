"""What a text of a program is, by its grammar and its names, or why it is none; and its printed form (docs/LANGUAGE.md)."""
from collections import defaultdict, namedtuple

from .tokens import Refusal, tokens_of

MOST_PROCESSES, MOST_OPEN = 6, 64
SECTIONS = {"var": "Variable", "scan": "Scan", "reg": "Register"}
MOST = {"Variable": 64, "Scan": 16, "Register": 8}
# Each statement by its word, `=` of an assignment. A name stands as its kind.
STATEMENTS = {
    "=": "Variable = expression ;", "get": "Variable = get Register expression ;", "put": "put Register expression ;",
    "scan": "Scan = scan ;", "copy": "Scan = copy Scan ;", "older": "Variable = older Scan expression expression ;",
    "held": "Variable = held Scan expression ;", "stamp": "stamp ;", "clear": "clear ;", "out": "out expression ;",
    "if": "if expression block else block", "while": "while expression block",
}
BEHIND = {word for word, form in STATEMENTS.items() if f"= {word}" in form}
OPERATORS = ("+", "-", "*", "/", "%", "<", "<=", "==", "!=")
ENDS_OF_LINES = {";", "{", "}", "begin", "end"}

# Its word, the numbers of its names, its expressions and its blocks, in order.
Statement = namedtuple("Statement", "word names expressions blocks")


class Reader:
    """Goes through the tokens of a text, a function for each part of the grammar. Each name has its place in its section for a
    number; it is noted with its kind, and whether it is declared there."""

    def __init__(self, text):
        self.tokens, self.length, self.place, self.is_open = tokens_of(text), len(text), 0, 0
        self.numbers, self.names = defaultdict(int), []

    def next(self, later=0):
        """What the next token stands for, or a later one."""
        return self.tokens[self.place + later].symbol if self.place + later < len(self.tokens) else None

    def take(self, *symbols):
        """The next token, which has to stand for one of these symbols."""
        if self.place == len(self.tokens):
            raise Refusal("5 Unexpected", self.length, self.length)
        token = self.tokens[self.place]
        if token.symbol not in symbols:
            raise token.refused("5 Unexpected")
        if token.word in "({" and self.is_open >= MOST_OPEN:
            raise token.refused("6 TooDeep")
        self.is_open += (token.word in "({") - (token.word in ")}")
        self.place += 1
        return token

    def program(self):
        """How many processes there are, how many variables, scans and register rows, and the body."""
        self.take("processes")
        processes = self.take("NUMBER")
        self.take(";")
        counts = [self.section(word, kind) for word, kind in SECTIONS.items()]
        self.take("begin")
        body = self.statements("end")
        if self.next():
            self.take()
        if not 1 <= int(processes.word) <= MOST_PROCESSES:
            raise processes.refused("11 Processes")
        self.check_names()
        return int(processes.word), counts, body

    def check_names(self):
        declared = {}
        for name, kind, is_declared in self.names:
            known = declared.get(name.word)
            if is_declared and known:
                raise name.refused("12 Twice")
            if is_declared and list(declared.values()).count(kind) >= MOST[kind]:
                raise name.refused("15 TooMany")
            if not is_declared and not known:
                raise name.refused("13 Unknown")
            if not is_declared and known != kind:
                raise name.refused("14 WrongKind", kind, known)
            declared[name.word] = kind

    def section(self, word, kind):
        count, sign = 0, self.take(word).word if self.next() == word else ";"
        while sign != ";":
            self.numbers[self.name(kind, True)] = count
            count += 1
            sign = self.take(",", ";").word
        return count

    def name(self, kind, is_declared=False):
        self.names.append((self.take("NAME"), kind, is_declared))
        return self.names[-1][0].word

    def statements(self, end):
        found = []
        while self.next() != end:
            found.append(self.statement())
        self.take(end)
        return found

    def statement(self):
        made = Statement(self.word(), [], [], [])
        for part in STATEMENTS[made.word].split():
            if part in MOST:
                made.names.append(self.numbers[self.name(part)])
            elif part == "expression":
                made.expressions.append(self.expression())
            elif part == "block":
                self.take("{")
                made.blocks.append(self.statements("}"))
            else:
                self.take(part)
        return made

    def word(self):
        """The word of the next statement. Whatever begins none is taken for a name, and refused as that."""
        if self.next() in STATEMENTS:
            return self.next()
        return self.next(2) if self.next(2) in BEHIND else "="

    def expression(self):
        if self.next() == "NAME":
            return "variable", self.numbers[self.name("Variable")]
        token = self.take("NUMBER", "me", "n", "(")
        if token.word == "(":
            left, operator, right = self.expression(), self.take(*OPERATORS).word, self.expression()
            self.take(")")
            return operator, left, right
        return ("number", int(token.word)) if token.symbol == "NUMBER" else (token.word,)


def program(text):
    """How many processes a program has, and its printed form, in which a number has no zeros in front."""
    reader, printed = Reader(text), ""
    processes, _, _ = reader.program()
    for token in reader.tokens:
        printed += token.word.lstrip("0") or "0" if token.symbol == "NUMBER" else token.word
        printed += "\n" if token.word in ENDS_OF_LINES else " "
    return processes, printed.encode()
