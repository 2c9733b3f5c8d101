"""The tokens of a program, each the longest that begins where it does (docs/LANGUAGE.md); and what a refusal tells."""
import re

KEYWORDS = set("processes var scan reg begin end get put stamp clear copy older held out if else while me n".split())
# No two kinds of words begin with the same character, so the longest of one kind is the longest of all.
WORDS = r"(?P<gap>[ \t\r\n]+|#[^\n]*)|(?P<NUMBER>[0-9]+)|(?P<NAME>[A-Za-z_][A-Za-z_0-9]*)|<=|==|!=|[;,(){}=+*/%<-]"
WORD = re.compile(WORDS + "|(?P<bad>(?s:.))")
GREATEST, LONGEST_NAME, LONGEST_TEXT = 4294967295, 64, 1000000


class Refusal(Exception):
    def __init__(self, name, *fields):
        super().__init__(name)
        self.line = " ".join(["refused", name, *map(str, fields)]).encode() + b"\n"


class Token:
    """A word of a text, the bytes where that starts and ends, and what the grammar has it stand for."""

    def __init__(self, found):
        self.word, self.start, self.end = found[0], *found.span()
        self.symbol = self.word if self.word in KEYWORDS else found.lastgroup or self.word
        if self.symbol == "bad":
            raise Refusal("2 BadCharacter", self.start)
        if self.symbol == "NUMBER" and int(self.word) > GREATEST:
            raise self.refused("3 NumberTooBig")
        if self.symbol == "NAME" and len(self.word) > LONGEST_NAME:
            raise self.refused("4 NameTooLong")

    def refused(self, name, *fields):
        return Refusal(name, self.start, self.end, *fields)


def text_of(given):
    """The characters of an input, one for each byte: whatever isn't plain may stand in comments alone."""
    if len(given) > LONGEST_TEXT:
        raise Refusal("1 TextTooLong")
    try:
        given.decode()
    except UnicodeDecodeError as bad:
        raise Refusal("2 BadCharacter", bad.start) from None
    return given.decode("latin-1")


def tokens_of(text):
    return [Token(found) for found in WORD.finditer(text) if found.lastgroup != "gap"]
