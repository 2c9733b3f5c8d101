"""Readers that are wrong in one part: what is wrong, what stands in a module, and what is put in its place; and an input by
which that is told."""
from .inputs import CHECK, MOVES, OF_CODES, ORDER, PROGRAM, RUNNABLE

NAMES = b", ".join(b"v%d" % number for number in range(17))

# By module.
WRONG = {
    "tokens": (
        ("a keyword is a name", "older held out", "older out", b"processes 1; var held; begin end"),
        ("a name is a keyword", 'me n".split', 'me n x".split', b"processes 1; var x; begin end"),
        ("a number may be one greater", "4294967295, 64", "4294967296, 64", b"processes 1; begin out 4294967296; end"),
        ("a name may be one longer", "64, 1000000", "65, 1000000", b"processes 1; var %s; begin end" % (b"x" * 65)),
        ("a text may be one longer", "64, 1000000", "64, 1000001", b" " * 1000001),
        ("a vertical tab is a blank", "[ ", "[\\v ", b"processes 1;\x0bbegin end"),
        ("a comment ends the text", "#[^\\n]*", "#(?s:.*)", b"processes 1; #\nbegin end"),
        ("a sign is two", "<=|", "", b"processes 1; begin out (1 <= 2); end"),
    ),
    "tree": (
        ("a statement is missing", '"clear": "clear ;", ', "", b"processes 1; begin clear; end"),
        ("`else` may be missing", "            else:\n",
         '            elif part == "else" != self.next():\n                break\n            else:\n',
         b"processes 1; begin if 1 { } end"),
        ("a section may be empty", 'while sign != ";":',
         'while sign != ";" and (self.next() != ";" or self.take(";").word != ";"):', b"processes 1; var ; begin end"),
        ("one bracket more is open", "MOST_OPEN = 6, 64", "MOST_OPEN = 6, 65", b"processes 1; begin out " + b"(" * 65),
        ("there is a process more", "MOST_OPEN = 6, 64", "MOST_OPEN = 7, 64", b"processes 7; begin end"),
        ("there is a scan more", '"Scan": 16', '"Scan": 17', b"processes 1; scan %s; begin end" % NAMES),
        ("`held` takes a variable", "held Scan", "held Variable", b"processes 1; var x; begin x = held x 0; end"),
        ("a scan is copied to a variable", "Scan = copy", "Variable = copy",
         b"processes 1; var x; scan s; begin x = copy s; end"),
        ("15 comes before 12", "if is_declared and known:",
         "if is_declared and known and list(declared.values()).count(kind) < MOST[kind]:",
         b"processes 1; reg a, b, c, d, e, f, g, h, a; begin end"),
        ("a bracket ends no line", '"{", "}", "begin"', '"{", "begin"', b"processes 1; begin while 0 { } end"),
        ("a zero in front is printed", 'token.word.lstrip("0")', "token.word", b"processes 01; begin end"),
    ),
    "schedules": (
        ("an item is told a byte late", '"51 BadItem", item.start()', '"51 BadItem", item.start() + 1', b"0 x"),
        ("a schedule may be one longer", "MOST_STEPS = 10000000", "MOST_STEPS = 10000001", b"0*10000001"),
        ("an item may have a sign", '([0-9]+)(', '(\\+?[0-9]+)(', b"+0"),
    ),
    "codes": (
        ("a code has a variable more", "(0, 64)", "(0, 65)", b"tickcode 2 1 65 0 0\nHalt\n"),
        ("a number of a code has a zero in front", "0|[1-9][0-9]*", "[0-9]+", b"tickcode 2 1 0 0 0\nPush 01\nOut\nHalt\n"),
        ("version 1 has all instructions", '{"Clear", "Held"}', "set()", b"tickcode 1 1 0 0 0\nClear\nHalt\n"),
        ("`Out` takes nothing", "Out 1 0", "Out 0 0", b"tickcode 2 1 0 0 0\nOut\nHalt\n"),
        ("a code has at most two instructions", "MOST_INSTRUCTIONS = 65535", "MOST_INSTRUCTIONS = 2",
         b"tickcode 2 1 0 0 0\n" + b"Halt\n" * 3),
        ("the tests of a place come in another order", 'instructions)),\n        )\n', 'instructions)),\n        )[::-1]\n',
         b"tickcode 2 1 0 0 0\nStore 0\nHalt\n"),
        ("a stamp may be jumped into", '            ("30 BadStamp", breaks_stamp(names, at, here, target)),\n', "",
         b"tickcode 2 1 0 0 0\nLoadWord\nNext\nExchange 0\nJump 1\n"),
        ("`Halt` goes on", '("Jump", "Halt")', '("Jump",)', b"tickcode 2 1 0 0 0\nHalt\n"),
    ),
}
# How an input of a module is read, and by which lines it is asked.
READ = {"codes": (RUNNABLE, OF_CODES), "schedules": (MOVES, ORDER), "tokens": (PROGRAM, CHECK), "tree": (PROGRAM, CHECK)}
CASES = [(what, module, old, new, (*READ[module], given)) for module, rows in WRONG.items() for what, old, new, given in rows]
