"""The words of a tool that takes names: of its parts, of files, or of what is built."""
import sys

from parts.tool import start, wrong_words


def begin(document, does, names=None, **options):
    """Does what an option asks for, as `start` does; words without one are handed to `does`. They are among these names, where
    there are such."""
    words = sys.argv[1:]
    if words and words[0].startswith("-"):
        start(document, does, **options)
    if names is not None and set(words).difference(names):
        wrong_words(document)
    sys.exit(does(words))
