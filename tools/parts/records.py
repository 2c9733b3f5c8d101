"""The records of wrong bodies that were seen refused, crates/NAME/edits/REFUSED (docs/MAINTAINING.md), and the sums of all that
decides whether they are."""
import functools
import hashlib
import os
import re

from parts import kit
from parts.crates import below, files_of
from parts.functions import Source
from parts.items import WORD, without_comments
from parts.reached import World
from parts.tool import read, read_bytes, write

PARTS = os.path.dirname(os.path.abspath(__file__))
LINE = re.compile(r"([0-9a-f]{32}) (\S+\.edit): (.+)")
PLACE = re.compile(r"(?:\./)?((?:src|proofs)/[^:\s]+)")
QUOTED = re.compile(r"`([^`]+)`")
IMPORTED = re.compile(r"^from parts(?: import ([\w, ]+)|\.(\w+) import)", re.MULTILINE)


def sum_of(*parts):
    return hashlib.sha256("\0".join(parts).encode()).hexdigest()


def sum_of_file(path):
    return hashlib.sha256(read_bytes(path)).hexdigest()


def files_of_tool(path):
    """The file of a tool, with the parts that it imports and those that these import."""
    found, left = [], [path]
    while left:
        found.append(left.pop())
        named = IMPORTED.findall(read(found[-1]))
        files = {f"{PARTS}/{name}.py" for one, other in named for name in re.split(r", *", one or other)}
        left += sorted(files.difference(found, left))
    return sorted(found)


def contracts(source):
    """The files of a crate's src/ with their texts, without the bodies of those functions that belong to no trait and make no
    constant."""
    for file in sorted(source.texts):
        lines = source.texts[file].split("\n")
        for function in source.functions(file):
            body = function.body()
            if body and function.may_stand_twice(source.types):
                opens, ends = (function.first - 1 + at for at in body)
                lines[opens + 1 : ends] = [""] * (ends - opens - 1)
        yield file, "\n".join(lines)


class Records:
    """The records of crates, each with a sum of the edit and of what decides whether it is refused: its functions with their
    proofs, what these reach, HANDLES, the toolchain and the parts of the tool. An edit that changes what many functions read
    has all of its crate for its functions."""

    def __init__(self, top, crates):
        self.top, self.crates = top, crates
        self.base = sum_of(kit.version(), sum_of_file(f"{top}/HANDLES"))
        self.tool = sum_of(*map(sum_of_file, files_of_tool(f"{PARTS}/trying.py")))

    def path(self, name):
        return f"{self.top}/crates/{name}/edits/REFUSED"

    @functools.cache
    def read(self, name):
        """The sum and the goal of each edit of a crate that has a record, and the lines that are none."""
        lines = read(self.path(name)).splitlines() if os.path.exists(self.path(name)) else []
        found = [(LINE.fullmatch(line), line) for line in lines]
        return {it[2]: (it[1], it[3]) for it, _ in found if it}, [line for it, line in found if not it]

    def holds(self, name, edit):
        """Whether the edit was seen refused as all stands here."""
        return self.read(name)[0].get(edit.name, ("", ""))[0] == self.sum(name, edit)

    def faults(self, tried):
        records, strange = self.read(tried.name)
        lost = sorted(set(records) - {edit.name for edit in tried.edits})
        return [f"no record: {line[:80]}" for line in strange] + [f"there is no {it}" for it in lost]

    def write(self, tried, found):
        """Writes the records of a crate: of the edits that were tried what is told of those that were refused, of the others
        the records that hold."""
        goals = {edit.name: self.read(tried.name)[0][edit.name][1] for edit in tried.edits if self.holds(tried.name, edit)}
        goals.update({name: told and how_refused(told) for name, told in found.items()})
        lines = [f"{self.sum(tried.name, it)} {it.name}: {goals[it.name]}\n" for it in tried.edits if goals.get(it.name)]
        write(f"{self.path(tried.name)}.new", "".join(lines))
        os.replace(f"{self.path(tried.name)}.new", self.path(tried.name))

    @functools.cached_property
    def world(self):
        return World(self.top, self.crates, lambda name: contracts(Source(f"{self.top}/crates/{name}")))

    @functools.cache
    def sum(self, name, edit):
        own = self.texts_of_crate(name) if edit.is_wide else self.texts_of_functions(name, edit)
        heads = [self.crates[it].line.partition(":")[0] for it in below(name, self.crates)]
        return sum_of(self.tool, self.base, *heads, edit.name, edit.text, *own)[:32]

    def texts_of_crate(self, name):
        start = [item for file in self.world.items if file.startswith(f"{name}/") for item in self.world.items[file]]
        files = files_of(f"{self.top}/crates/{name}")
        return [*self.texts_of(name, start, set()), *(without_comments(read(f"{self.top}/crates/{name}/{it}")) for it in files)]

    def texts_of_functions(self, name, edit):
        world, start, words, own = self.world, [], set(), []
        for function in edit.functions:
            file, text = f"{name}/{function.file}", without_comments("\n".join(function.text))
            read_here = text + edit.text
            words.update(WORD.findall(read_here))
            start += world.edges(file, frozenset(WORD.findall(read_here)), read_here) + world.root(name)
            start += [item for page in world.pages(name, {function.proof, function.path}) for item in world.items[page]]
            own.append(f"{file}\n{text}")
        return [*own, *self.texts_of(name, start, words)]

    def texts_of(self, name, start, words):
        return sorted(f"{item.file}\n{item.text}" for item in self.world.reached(start, words, set(below(name, self.crates))))


def how_refused(told):
    place, goals = PLACE.search(told), QUOTED.findall(told)
    goal = next((it for it in goals if it not in ("search", "omega", "grind")), "a goal is open")
    limit = " (by a limit of the search)" if "at one of its limits" in told else ""
    return f"{place[1] if place else 'the crate'}: {goal}{limit}"
