"""The programs that are searched, each with its name and its text."""
import glob
import os

from parts.asking import TOP
from parts.rows import File

from . import random_programs

# Rows that ask of programs that people know, and of small ones, for what those don't have.
KNOWN, SMALL = "answers/states.txt", "answers/small_programs.txt"


def read(path):
    """The text of a program without its lines `#!`: searched is what traps."""
    with open(f"{TOP}/{path}", "rb") as file:
        return b"".join(line for line in file if not line.lstrip().startswith(b"#!"))


def examples():
    return [os.path.relpath(path, TOP) for path in sorted(glob.glob(f"{TOP}/examples/*.tick"))]


def asked(rows, names):
    """The programs that rows ask of, but for those that have a name; each text once."""
    for row in File(TOP, rows).rows(read(rows).decode()):
        if row.words[:2] == [b"ticklab", b"explore"]:
            names.setdefault(row.given if row.words[2] == b"-" else read(row.words[2].decode()), row.where)
    return [(name, text) for text, name in names.items()]


def known():
    return asked(KNOWN, {read(name): name for name in examples()})


def small():
    return asked(SMALL, {})


def random():
    """These with their texts before their names, since they stand in no file."""
    texts = [*random_programs.tries(), *random_programs.texts()]
    return [(f"{text.decode()}\nrandom program {number}", text) for number, text in enumerate(texts, 1)]
