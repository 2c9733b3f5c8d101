"""Asks a program what a row of answers/ asks, and compares what it answers with what stands there."""
import functools
import itertools
import resource
import tempfile

from parts.asking import NAMES, Asker, TookTooLong, program
from parts.tool import write

# So much of a line is shown, and so much stack a row has that says how much memory it may take.
SHOWN, KIB_OF_STACK = 160, 256


def cut(text):
    return "no line" if text is None else repr(text if len(text) <= SHOWN else text[:SHOWN] + b" ..")[1:]


def first_difference(found, wanted):
    """The first line of two texts that isn't the same, with its line feed."""
    lines = found.splitlines(keepends=True)
    pairs = enumerate(itertools.zip_longest(lines, wanted.splitlines(keepends=True)), 1)
    number, (here, there) = next(it for it in pairs if it[1][0] != it[1][1])
    return f"line {number} of {len(lines)}: found {cut(here)}, wanted {cut(there)}"


def wrong_output(name, outputs, found):
    """How an output differs from each that may come."""
    if any(output.has(found) for output in outputs):
        return []
    text, does = outputs[0]
    if does != "be":
        return [f"{name}: found {cut(found)}, which doesn't {does} {cut(text)}"]
    others = f", nor as {len(outputs) - 1} others" if len(outputs) > 1 else ""
    return [f"{name}: {first_difference(found, text)}{others}"]


def compared(output, pattern):
    """What of an output is compared: all, or only what a pattern finds."""
    if pattern is None:
        return output
    return b"".join(group + b"\n" for match in pattern.finditer(output) for group in match.groups() if group is not None)


@functools.cache
def own_asker():
    """What asks in this process."""
    return Asker()


def wrong_of(row, asker=None):
    """What is told of a row that is answered otherwise."""
    asker, name = asker or own_asker(), row.words[0].decode() if row.words else ""
    line = f"{row.where}: {' '.join(cut(word)[1:-1] for word in row.words)}"
    if name not in NAMES:
        return [f"{line}: asks neither of {' and '.join(NAMES)}"]
    try:
        status, output, told = asker.answer(program(name), row.words, row.given)
    except TookTooLong:
        return [f"{line}\n  takes more than {asker.patience} seconds"]
    wrong = [] if status == row.status else [f"status: found {status}, wanted {row.status}"]
    wrong += wrong_output("output", row.outputs, compared(output, row.pattern)) + wrong_output("standard error", [row.told], told)
    return ["\n  ".join([line, *wrong])] if wrong else []


def lay(row, texts, folder):
    """Puts those of the named texts that a row names into files of these names."""
    for name in texts.keys() & {word.removeprefix(b"@").decode(errors="replace") for word in row.words}:
        write(f"{folder}/{name}", texts[name])


def wrong_within(row, texts, seconds=60, stack=KIB_OF_STACK):
    """The same of a row with a limit of memory, in a folder of its own."""
    limits = (resource.RLIMIT_CORE, 0), (resource.RLIMIT_STACK, stack * 2**10), (resource.RLIMIT_AS, row.mib * 2**20)
    with tempfile.TemporaryDirectory() as folder:
        lay(row, texts, folder)
        return wrong_of(row, Asker(seconds, folder, limits))
