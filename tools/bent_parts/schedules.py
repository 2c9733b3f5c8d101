"""What a schedule is, or why it is none; and stamps and clears (docs/FORMATS.md)."""
import re

from .tokens import Refusal

ITEM = re.compile(r"[^ \t\r\n]+")
STEPS = re.compile(r"(c?)([0-9]+)(?:\*([0-9]+))?")
MOST_STEPS = 10000000


def schedule(text, processes, has_clears):
    """A schedule of so many processes with each item in full; clears may stand in it where it `has_clears`."""
    items, steps = [], 0
    for item in ITEM.finditer(text):
        found = STEPS.fullmatch(item[0])
        count = int(found[3] or 1) if found and (has_clears or not found[1]) else 0
        if count == 0:
            raise Refusal("51 BadItem", item.start())
        if int(found[2]) >= processes:
            raise Refusal("52 NoSuchProcess", item.start())
        steps += count
        if steps > MOST_STEPS:
            raise Refusal("53 TooLong")
        items.append(f"{found[1]}{int(found[2])}*{count} ")
    return "".join(items).encode()
