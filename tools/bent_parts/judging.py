"""What an input is, and whether the program answers to it as it has to."""
from . import codes, schedules, tree
from .inputs import FORM, MOVES, PLAYED, PROCESSES, RUNNABLE
from .tokens import Refusal, text_of

# What is answered to a word that is none.
NO_TEXT = (4, b"")


def taken(reads, given):
    """How many processes there are, and the plain form."""
    text = text_of(given)
    if reads == MOVES:
        return PROCESSES, schedules.schedule(text, PROCESSES, True)
    if reads == RUNNABLE and text.startswith("tickcode "):
        return codes.code(text)
    return tree.program(text)


class Judge:
    def __init__(self, ask):
        self.ask, self.kept = ask, {}

    def wrong(self, reads, lines, given, is_cut=False, turn=0):
        """What is answered otherwise to an input. One that is refused and not cut off is asked by one command in turn,
        since all of them read it alike."""
        try:
            found = taken(reads, given)
            asked = [(words, self.wanted(shows, words, *found)) for words, shows in lines]
        except Refusal as refusal:
            asked = [(words, (1, refusal.line)) for words, _ in (lines if is_cut else [lines[turn % len(lines)]])]
        found = [(words, self.ask(words, given), wanted) for words, wanted in asked]
        return [f"{words} on {given}:\n  found  {it}\n  wanted {wanted}" for words, it, wanted in found if it != wanted]

    def wanted(self, shows, words, processes, plain):
        if shows == FORM:
            return 0, plain
        if shows == PLAYED:
            try:
                words = (words[0], schedules.schedule(text_of(words[1]), processes, False))
            except Refusal as refusal:
                return NO_TEXT if refusal.line.startswith(b"refused 2 ") else (1, refusal.line)
        if (words, plain) not in self.kept:
            self.kept[words, plain] = self.ask(words, plain)[1]
        return 0, self.kept[words, plain]
