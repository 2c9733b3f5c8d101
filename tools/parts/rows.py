"""Rows of answers/: what a program is asked, and what it answers (answers/README.md)."""
import itertools
import re
import shlex
from collections import namedtuple

from parts.tool import read_bytes

ESCAPE = re.compile(
    rb"\\(?:(?P<byte>[ntr\\\"])|x(?P<hex>[0-9a-f]{2})|<(?P<name>[^>]+)>"
    rb"|(?P<count>\d+)(?:\[(?P<first>-?\d+),(?P<step>-?\d+)\])?\"(?P<piece>(?:\\.|[^\"\\])*)\"|(?P<end>$)|(?P<bad>.?))"
)
BYTES = {b"n": b"\n", b"t": b"\t", b"r": b"\r", b"\\": b"\\", b'"': b'"'}
# A line goes on behind a backslash that isn't escaped itself.
GOES_ON = re.compile(r"(?<!\\)(?:\\\\)*\\$")
ANY = "\\..."
# What an output may have to do with a text.
DOES = {"be": bytes.__eq__, "begin with": bytes.startswith, "end with": bytes.endswith, "have": bytes.__contains__}
# A command line with its input and what is to come of it, in how many MiB of memory, and where that stands.
Row = namedtuple("Row", "where words given outputs told status pattern mib")


class BadRow(Exception):
    """A line that is none of these."""


class Output(namedtuple("Output", "text does")):
    def has(self, found):
        return DOES[self.does](found, self.text)


class File:
    """The rows of a file, and its named texts. Each line of it goes with where it stands."""

    def __init__(self, top, path):
        self.top, self.path, self.texts = top, path, {}

    def rows(self, text):
        """Each row when it is asked for: texts may be large."""
        lines = [(f"{self.path}:{number}", line) for number, line in enumerate(text.split("\n"), 1) if not line.startswith("#")]
        blocks = [list(block) for is_text, block in itertools.groupby(lines, lambda it: bool(it[1].strip())) if is_text]
        for block in blocks:
            yield from self.of_block(block)

    def of_block(self, lines):
        where, head = lines[0]
        if head.startswith("text "):
            self.texts[head[5:].strip()] = self.joined(lines[1:], "|", b"")
            return []
        asked = [it for it in lines if it[1].startswith("$ ")]
        if not asked or lines[: len(asked)] != asked:
            raise BadRow(f"{where}: {'the command lines stand first' if asked else 'no command line stands here'}")
        answer = self.answer(lines[len(asked) :])
        return [Row(where, self.words(where, line), *answer) for where, line in asked]

    def words(self, where, line):
        return [self.expanded(where, word.encode()) for word in shlex.split(line[2:])]

    def answer(self, lines):
        """The input, the outputs of which one has to come, what is told, the status, what finds the output, and the memory."""
        of, outputs = {sign: [] for sign in "<!=/%"}, [[]]
        for where, line in lines:
            if line == "or":
                outputs.append([])
            elif line[0] != ">" and line[0] not in of:
                raise BadRow(f"{where}: no line of a row: {line}")
            else:
                of.get(line[0], outputs[-1]).append((where, line))
        status, mib = (int(of[sign][0][1][1:]) if of[sign] else 0 for sign in "=%")
        pattern = self.joined(of["/"], "/", b"")
        outputs, told = [self.output(it, ">") for it in outputs], self.output(of["!"], "!")
        return self.joined(of["<"], "<", b""), outputs, told, status, re.compile(pattern) if pattern else None, mib

    def output(self, lines, sign):
        does = 0
        if lines and lines[0][1].startswith(f"{sign} {ANY}"):
            lines[0], does = (lines[0][0], lines[0][1].replace(ANY, "", 1)), 2
        if lines and lines[-1][1].endswith(ANY):
            lines[-1], does = (lines[-1][0], lines[-1][1].removesuffix(ANY) + "\\"), does + 1
        return Output(self.joined(lines, sign, b"\n"), [*DOES][does])

    def joined(self, lines, sign, last):
        """The lines as one text: a line feed between two, unless the first ends in a backslash, and `last` at the end."""
        text = b""
        for (where, line), feed in zip(lines, [b"\n"] * (len(lines) - 1) + [last]):
            if line[0] != sign or line[1:2] not in ("", " "):
                raise BadRow(f"{where}: `{sign} ` stands before each of these lines: {line}")
            text += self.expanded(where, line[2:].encode()) + (b"" if GOES_ON.search(line) else feed)
        return text

    def expanded(self, where, text):
        return ESCAPE.sub(lambda escape: self.meant(where, escape), text)

    def meant(self, where, escape):
        if escape["byte"]:
            return BYTES[escape["byte"]]
        if escape["hex"]:
            return bytes.fromhex(escape["hex"].decode())
        if name := (escape["name"] or b"").decode():
            if "/" not in name and name not in self.texts:
                raise BadRow(f"{where}: no text above has this name: {name}")
            return read_bytes(f"{self.top}/{name}") if "/" in name else self.texts[name]
        if escape["bad"] is not None:
            raise BadRow(f"{where}: no such escape: {escape[0].decode()}")
        piece, count = self.expanded(where, escape["piece"] or b""), int(escape["count"] or 0)
        if not escape["first"]:
            return piece * count
        first, step = int(escape["first"]), int(escape["step"])
        return b"".join(piece.replace(b"@", b"%d" % (first + step * time)) for time in range(count))
