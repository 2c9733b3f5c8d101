"""The tokens of a source, its functions and their loops, as tools/refusals reads them. Comments, clauses and texts are left
out."""
import re

TEXT = r"b?\"(?:\\.|[^\"\\])*\"|'(?:\\.|[^'\\])'"
LEFT_OUT = re.compile(rf"//[^\n]*|{TEXT}", re.S)
TOKEN = re.compile(r"[A-Za-z_]\w*|\d\w*(?:\.\d\w*)?|=>|->|::|\.\.=?|\S")
CLAUSE = re.compile(r"^[ \t]*(requires|ensures|ghost|measure)\b")


class Token(str):
    """A word or a sign, which knows its line."""

    def __new__(cls, text, line):
        token = super().__new__(cls, text)
        token.line = line
        return token


def without_clauses(text):
    """A text whose clauses are empty lines, each to where its last bracket closes."""
    kept, depth = [], 0
    for line in text.split("\n"):
        if depth > 0 or CLAUSE.match(line):
            signs = re.findall(r"[][(){}]", re.sub(TEXT, "", line))
            depth = max(depth, 0) + sum(1 if sign in "([{" else -1 for sign in signs)
            # (it ends a declaration, too)
            line = ";" if line.endswith(";") else ""
        kept.append(line)
    return "\n".join(kept)


def tokens_of(text, values):
    """The tokens of a text; for a word that has a value here that stands."""
    bare = LEFT_OUT.sub(lambda found: " " + "\n" * found[0].count("\n"), without_clauses(text))
    found = [(number, word) for number, line in enumerate(bare.split("\n"), 1) for word in TOKEN.findall(line)]
    return [Token(values.get(word, word), number) for number, word in found]


def closing(words, at):
    """The place of the bracket that closes the one at this place."""
    depth = 0
    for place in range(at, len(words)):
        depth += (words[place] in "([{") - (words[place] in ")]}")
        if depth == 0:
            return place
    return len(words) - 1


def past(words, at, signs):
    """The place of the next of these signs, outside of all brackets that open on the way."""
    while at < len(words) and words[at] not in signs:
        at = (closing(words, at) if words[at] in "([{" else at) + 1
    return at


def parts(words, signs):
    """What stands between these signs, outside of all brackets."""
    found, depth = [[]], 0
    for word in words:
        depth += (word in "([{") - (word in ")]}")
        if depth == 0 and word in signs:
            found.append([])
        else:
            found[-1].append(word)
    return found


class Function:
    """A function: its name, its line, the names of its parameters, whether it is marked as one of those that call each other,
    and the words of its body."""

    def __init__(self, tokens, at):
        self.name, self.line = tokens[at + 1], tokens[at].line
        self.is_in_cycle = "[ cycle (" in re.split("[;{}]", " ".join(tokens[max(at - 60, 0) : at]))[-1]
        depth, opens = 0, at + 2
        while tokens[opens] != "(" or depth:
            depth += (tokens[opens] == "<") - (tokens[opens] == ">")
            opens += 1
        closes = closing(tokens, opens)
        given = [parts(it, (":",))[0] for it in parts(tokens[opens + 1 : closes], (",",))]
        self.given = {word for names in given for word in names if word.isidentifier()} - {"mut"}
        start = past(tokens, closes + 1, "{;")
        self.words = tokens[start : closing(tokens, start) + 1]

    def each_loop(self):
        """Each loop and closure: the places of its first word, of what follows its head, and of its end."""
        for at, word in enumerate(self.words):
            if word in ("for", "while", "loop") and self.words[at + 1] != "<":
                opens = past(self.words, at + 1, "{")
                yield at, opens, closing(self.words, opens)
            elif word == "|" and self.words[at - 1] in ("(", ",", "=", "move"):
                opens = self.words.index("|", at + 1) + 1
                yield at, opens, past(self.words, opens, ",;)]}")


def functions(tokens, kind=Function):
    return [kind(tokens, at) for at, word in enumerate(tokens[:-1]) if word == "fn" and tokens[at + 1].isidentifier()]
