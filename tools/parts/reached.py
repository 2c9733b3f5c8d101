"""What a check of a function reads of the crates, as items of their files.

A name reaches what the file has by it, and what it imports by it. A type reaches what traits have for it, and those of its methods
whose names are read. Where a name may mean several items it reaches them all. So no less should be reached than a check reads, but nothing
proves that; the gate tries one in ten of the records.
"""
import collections
import functools
import re

from parts import items
from parts.crates import files_of
from parts.items import WORD
from parts.tool import read

TYPES = ("struct", "enum", "union", "type", "macro_rules!")
QUALIFIED = re.compile(r"\b([a-z_]\w*)::(\w+)")
# What a source names of a page, for a tactic.
OF_PAGE = re.compile(r"\b(\w+)::((?:proofs|specs)(?:::\w+)*)::(\w+)")


class World:
    """The items of crates; a source is read as `sources_of` gives it."""

    def __init__(self, top, crates, sources_of):
        self.crates, self.items, self.imports = crates, {}, {}
        self.by_name, self.of_type, self.of_trait = (collections.defaultdict(list) for _ in range(3))
        for name in crates:
            folder = f"{top}/crates/{name}"
            for path, text in sources_of(name):
                self.keep(f"{name}/{path}", *items.source(f"{name}/{path}", text))
            for path in (it for it in files_of(folder) if it.endswith(".antt")):
                self.keep(f"{name}/{path}", *items.page(f"{name}/{path}", read(f"{folder}/{path}")))

    def keep(self, file, imports, found):
        self.imports[file], self.items[file] = imports, found
        for item in found:
            for name in item.names or [""] * (item.kind not in ("impl", "opening")):
                self.by_name[file, name].append(item)
            for name in item.owners:
                self.of_type[name].append(item)
            for name in item.trait:
                self.of_trait[name].append(item)

    def at(self, file, names):
        """What a file has by these names itself."""
        return [item for name in names for item in self.by_name.get((file, name), ())]

    def root(self, crate):
        """What stands in the root file of a crate without a name, such as the tactics of all its functions."""
        return self.at(self.module(crate, [])[0], [""])

    def pages(self, crate, paths):
        """The pages of the proofs of functions."""
        folders = tuple(f"{crate}/proofs/{path.replace('::', '/')}/" for path in paths)
        return sorted(file for file in self.items if file.startswith(folders))

    def module(self, crate, segments):
        """The file of the module that a path begins with, and what is left of the path."""
        for count in range(len(segments), 0, -1):
            for end in (".rt", "/mod.rt"):
                file = f"{crate}/src/{'/'.join(segments[:count])}{end}"
                if file in self.items:
                    return file, segments[count:]
        return next((it for it in (f"{crate}/src/lib.rt", f"{crate}/src/main.rt") if it in self.items), ""), segments

    @functools.cache
    def of_page(self, path, name):
        """What an import of a page means: of a function the page has its goals, of a type its parts."""
        crate, *segments = path.split(".")
        for count in range(len(segments), 1, -1):
            file = f"{crate}/{'/'.join(segments[:count])}.antt"
            if file in self.items:
                found = [] if name is None else self.handed_on(file, name)
                return found or self.items[file]
        if crate not in self.crates:
            return []
        file, left = self.module(crate, segments[2 if segments[:2] == ["specs", "declared"] else 1 :])
        return self.at(file, [*left, name]) or self.items.get(file, [])

    def handed_on(self, file, name):
        own = self.at(file, [name])
        return own or [it for meant in self.imports[file].get(name, ()) for it in self.meant(file, meant)]

    @functools.cache
    def of_source(self, crate, segments):
        """What a path of a source of this crate means."""
        crate = segments[0] if segments[0] in self.crates else crate if segments[0] in ("crate", "self", "super") else None
        file, left = self.module(crate, list(segments[1:])) if crate else ("", [])
        if not file:
            return []
        if not left:
            return self.items[file]
        found = self.at(file, left) or self.of_source_elsewhere(crate, file, segments, left)
        return found or [it for one in self.items if one.startswith(f"{crate}/src/") for it in self.at(one, left[-1:])]

    def of_source_elsewhere(self, crate, file, segments, left):
        handed = [meant for name in left for meant in self.imports[file].get(name, ()) if meant.path and meant.path != segments]
        return [it for meant in handed for it in self.of_source(crate, meant.path)]

    def meant(self, file, meant):
        return self.of_source(file.split("/")[0], meant.path) if meant.path else self.of_page(meant.page, meant.name)

    def edges(self, file, words, text):
        """The items that a text of this file reads, which has these words."""
        imports, found = self.imports[file], self.at(file, words | {""})
        for name in imports:
            # (a sign, or all that a module has, may be read without its name)
            if name in words or not WORD.fullmatch(name):
                for meant in imports[name]:
                    its = self.meant(file, meant) if name != "*" else self.of_source(file.split("/")[0], meant.path[:-1])
                    found += [it for it in its if it.names & words] or its
        return found + self.qualified(file.split("/")[0], text) if file.endswith(".rt") else found

    def qualified(self, crate, text):
        """What a text of a source names by a path."""
        found = [it for pair in QUALIFIED.findall(text) for it in self.of_source(crate, pair)]
        for root, path, name in OF_PAGE.findall(text):
            found += self.of_page(f"{crate if root == 'crate' else root}.{path}".replace("::", "."), name)
        return found

    @functools.cache
    def edges_of(self, item):
        return tuple(dict.fromkeys(self.edges(item.file, item.words, item.text)))

    def reached(self, start, words, allowed):
        """All that these items reach, with these words, in the crates that are allowed."""
        found, left, seen, types, traits = {}, list(start), set(words), set(), set()
        while left:
            while left:
                item = left.pop()
                if item not in found and item.file.split("/")[0] in allowed:
                    found[item] = None
                    seen |= item.words
                    left += self.edges_of(item)
                    types |= item.names if item.kind in TYPES else set()
                    traits |= item.names if item.kind == "trait" else set()
            of_types = [it for name in types for it in self.of_type[name] if it.kind == "impl" or it.names & seen]
            of_traits = [it for name in traits for it in self.of_type[name] if it.names & seen]
            of_both = [it for name in traits for it in self.of_trait[name] if it.owners & seen]
            left = [it for it in of_types + of_traits + of_both if it not in found and it.file.split("/")[0] in allowed]
        return list(found)
