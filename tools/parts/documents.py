"""What documents have in Markdown or in mdoc: links within the repository, and commands behind a `$` with their answers."""
import os
import re

from parts.tool import ran

FENCED = re.compile(r"^```.*?^```", re.MULTILINE | re.DOTALL)
LINK = re.compile(r"\]\(([^)\s]+)\)")
# What stands after each command's answer.
MARK = "\x1eanswered"


def commands(block):
    """Each command of a block of numbered lines: its line, its words, and the answer that is printed."""
    found = []
    for number, line in block:
        if line.startswith("$ "):
            found.append([number, line[2:], ""])
        elif found and line.startswith("> ") and not found[-1][2]:
            found[-1][1] += "\n" + line[2:]
        elif found:
            found[-1][2] += line + "\n"
    return found


def wrong_in(path, blocks, folder, **environment):
    """How many commands a page has, and what is told of those that answer otherwise. One shell runs them in a folder, in their
    order, so that a name or a file of an earlier one is there."""
    listed, wrong = [it for block in blocks for it in commands(block)], []
    script = "".join(f"{command}\nprintf '{MARK}'\n" for _, command, _ in listed)
    came = ran("bash", "-c", script, cwd=folder, env={**os.environ, **environment}, timeout=600)
    for (number, command, printed), answered in zip(listed, came.stdout.split(MARK)):
        if answered != printed:
            wrong.append(f"{path}:{number}: {command}\nprinted:\n{printed}answered:\n{answered}")
    return len(listed), wrong


def without_fenced(text):
    return FENCED.sub("", text)


def links(text):
    """The links within the repository; others begin with a scheme, as `https:`."""
    return [target for target in LINK.findall(text) if ":" not in target]
