"""The items of a file of a crate: what it declares at the left edge, and what its names mean that it imports.

Comments that have lines of their own are left out. What has no name of its own, such as an attribute of the file, is an item
without names.
"""
import collections
import re

WORD = re.compile(r"[A-Za-z_]\w*")
COMMENT = re.compile(r"(?m)^[ \t]*(?://|--)[^\n]*\n?")
SOURCE_USE = re.compile(r"(?m)^[ \t]*(?:pub(?:\([\w:]+\))?[ \t]+)?(ghost[ \t]+)?use\s+([^;]+);\n?")
PAGE_USE = re.compile(r"(?m)^(?:pub )?use (Rattle\.[^{\n]*(?:\{[^}]*\})?[^\n]*)\n")
PAGE_PATH = re.compile(r"Rattle\.([\w.+]+?)(?:\.\{([^}]*)\}|\.([^\w.{\s]+)|\s+as\s+(\w+))?\s*$")
PAGE_WORDS = r"(?:(?:pub|abbrev|unfoldable|opaque)\s+)*"
PAGE_HEAD = re.compile(rf"{PAGE_WORDS}(?:(data|record|module|mutual)\b\s*)?([^\s:({{]*)")
INNER = re.compile(rf"(?m)^[ \t]+{PAGE_WORDS}([^\s:(){{}}=]+)(?: [^\s:(){{}}=]+)*\s*[:=;]")
DECLARED = re.compile(
    r"(?m)^\s*(?:pub(?:\([\w:]+\))?\s+)?(?:const\s+|unsafe\s+|extern\s+\"C\"\s+)*"
    r"(fn|struct|enum|union|trait|const|type|static|impl|macro_rules!)\s*(\w*)"
)
MODULE = re.compile(r"(?:#\[[^\n]*\]\s*)*(?:pub(?:\([\w:]+\))?\s+)?mod \w+;\s*")
MEMBER = re.compile(r"(?m)^    (?:pub(?:\([\w:]+\))?\s+)?(?:const\s+|unsafe\s+)*(?:fn|ghost|const|type) (\w+)")
IMPL = re.compile(r"impl\b(.*?)(?:\{|\bwhere\b)", re.S)

# An item: its file, the names by which it is reached, its text and the words in it. A member has the words of the type or trait
# that it belongs to, an `impl` of a trait those of both.
Item = collections.namedtuple("Item", "file names text words kind owners trait")
# What an imported name means: what a page has by it (by None all that the page has), or a path of a source.
Import = collections.namedtuple("Import", "page name path")


def without_comments(text):
    return COMMENT.sub("", text)


def item(file, names, text, kind="", owners="", trait=""):
    words = (frozenset(WORD.findall(it)) for it in (owners, trait))
    return Item(file, frozenset(filter(None, names)), text, frozenset(WORD.findall(text)) | frozenset(text.split()), kind, *words)


def chunks(text, indent=""):
    """The declarations that begin at this indent, each with the attributes above it; before them what stands further out."""
    found, is_attribute = [[]], False
    for line in text.split("\n"):
        rest = line.removeprefix(indent)
        if line.startswith(indent) and rest[:1] not in ("", " ", ")", "}", "]", "{"):
            if not is_attribute:
                found.append([])
            is_attribute = rest.startswith("#[")
        found[-1].append(line)
    return ["\n".join(lines) for lines in found]


def page_imports(path):
    """The names that a `use` of a page brings, each with what it means; none where it is of no crate."""
    found = PAGE_PATH.match(path)
    if not found:
        return []
    where, names, sign, alias = found.groups()
    if names is None and sign is None:
        return [(alias or where.rpartition(".")[2], Import(where, None, None))]
    pairs = [it.partition(" as ")[::2] for it in re.split(r"\s*,\s*", (names or sign).strip()) if it]
    return [(new or old, Import(where, old, None)) for old, new in pairs]


def leaves(tree, before=""):
    """The paths that a `use` of a source names."""
    head, brace, rest = tree.strip().partition("{")
    if not brace:
        return [before + head]
    found, depth, part = [], 0, ""
    for sign in rest[: rest.rindex("}")] + ",":
        if sign == "," and depth == 0:
            found += leaves(part, before + head) if part.strip() else []
            part = ""
        else:
            depth += (sign == "{") - (sign == "}")
            part += sign
    return found


def source_imports(path):
    for leaf in leaves(path):
        old, _, new = leaf.partition(" as ")
        segments = tuple(it.strip() for it in old.split("::"))
        yield new.strip() or segments[-1], Import(None, None, segments)


def page(file, text):
    """The imports of a page, and its items: a definition stands with all its lines, and what stands inside of another with it."""
    text, imports, groups, last = without_comments(text), collections.defaultdict(list), {}, ""
    for path in PAGE_USE.findall(text):
        for name, meant in page_imports(path):
            imports[name].append(meant)
    for chunk in chunks(PAGE_USE.sub("", text)):
        kind, name = PAGE_HEAD.match(chunk).groups()
        last = last if name == "unfolding" else name
        groups.setdefault((last, chunk) if kind in ("module", "mutual") else (last,), []).append((kind, chunk))
    items = []
    for (name, *_), parts in groups.items():
        text = "\n".join(chunk for _, chunk in parts)
        inner = INNER.findall(text) if any(kind for kind, _ in parts) else []
        items += [item(file, [name if WORD.match(name) or "◌" in name else "", *inner], text)] if text.strip() else []
    return imports, items


def members(file, text, owner, kind):
    """What stands in a trait or in an `impl` of a type: each function, ghost or constant is an item with the line that opens it
    all. Beside them is what opens a trait, by its name."""
    opening, *parts = chunks(text, "    ")
    found = [(MEMBER.search(part), part) for part in parts]
    rest = "\n".join([opening, *(part for name, part in found if not name)])
    return [item(file, [owner] if kind == "trait" else [], rest, kind, owner)] + [
        item(file, [name[1]], f"{opening}\n{part}", "member", owner) for name, part in found if name
    ]


def impl(file, text):
    """The items of an `impl`: those of a trait all together are one."""
    trait, _, owner = IMPL.match(text)[1].rpartition(" for ")
    return [item(file, [], text, "impl", owner, trait)] if trait else members(file, text, owner, "opening")


def source(file, text):
    """The imports of a source, and its items."""
    text, imports, items = without_comments(text), collections.defaultdict(list), []
    for is_ghost, path in SOURCE_USE.findall(text):
        for name, meant in page_imports(path) if is_ghost else source_imports(path):
            imports[name].append(meant)
    for chunk in chunks(SOURCE_USE.sub("", text)):
        found = DECLARED.search(chunk)
        kind, name = found.groups() if found else ("", "")
        if kind == "impl":
            items += impl(file, chunk[chunk.index("impl", found.start()) :])
        elif kind == "trait":
            items += members(file, chunk, name, kind)
        elif chunk.strip() and not MODULE.fullmatch(chunk):
            items.append(item(file, [name], chunk, kind))
    return imports, items
