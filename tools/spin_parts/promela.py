"""A program as a model for Spin, statement by statement (docs/EXPLORING.md); tickets.pml says what stands for tickets."""
from bent_parts.tree import MOST, STATEMENTS, Reader

# Statements with their names and expressions in order. (Nobody sees what is given out.)
FORMS = {
    "=": "{0} = {1}", "get": "{0} = {1}[{2}]", "put": "{0}[_pid] = {1}", "stamp": "stamp()", "clear": "clear()",
    "scan": "d_step {{ for (q : 0 .. N - 1) {{ {0}[q] = tickets[q] }} }}", "older": "{0} = {1}[{2}] < {1}[{3}]",
    "held": "{0} = {1}[{2}] != 0", "out": "skip",
}
LEAVES = {"me": "_pid", "n": "N"}


class Model:
    """The text of a model of N processes, in which a call of tickets.pml asserts something where a register row is put."""

    def __init__(self, text, row=None, asserts=None):
        reader = Reader(text)
        _, _, body = reader.program()
        self.row, self.asserts = row, asserts
        self.names = {(kind, reader.numbers[it.word]): it.word for it, kind, is_declared in reader.names if is_declared}
        rows = [f"byte {name}[N];" for (kind, _), name in self.names.items() if kind == "Register"]
        own = [f"byte {name}{'[N]' * (kind == 'Scan')};" for (kind, _), name in self.names.items() if kind != "Register"]
        self.text = "\n".join([*rows, "active [N] proctype P() {", *own, self.block(body), "}\n"])

    def block(self, statements):
        return ";\n".join(map(self.statement, statements))

    def branch(self, test, block):
        return f":: {test} -> {self.block(block)}\n" if block else f":: {test}\n"

    def statement(self, it):
        expressions, blocks = [self.expression(tree) for tree in it.expressions], it.blocks
        if it.word == "if":
            return f"if\n{self.branch(*expressions, blocks[0])}{self.branch('else', blocks[1])}fi"
        if it.word == "while":
            return f"do\n{self.branch(*expressions, *blocks)}:: else -> break\nod"
        kinds = [part for part in STATEMENTS[it.word].split() if part in MOST]
        names = [self.names[place] for place in zip(kinds, it.names)]
        made = FORMS[it.word].format(*names, *expressions)
        if it.word == "put" and names == [self.row]:
            return f"atomic {{ {made}; {self.asserts} }}"
        # (where a division traps an assertion fails)
        traps = it.word == "=" and it.expressions[0][0] == "/"
        return f"d_step {{ assert({self.expression(it.expressions[0][2])}); {made} }}" if traps else made

    def expression(self, tree):
        kind, *parts = tree
        if kind in ("number", "variable"):
            return str(parts[0]) if kind == "number" else self.names["Variable", parts[0]]
        return f"({self.expression(parts[0])} {kind} {self.expression(parts[1])})" if parts else LEAVES[kind]
