"""The functions of a crate, by the lines that they stand in and by the path under which a check names them.

The files are laid out by `rt fmt`: a function begins at the left edge, or four spaces in, within an `impl` or a trait.
"""
import os
import re

HEAD = re.compile(r"^(\s*)(?:pub(?:\([\w:]+\))?\s+)?(const\s+)?(?:unsafe\s+|extern\s+\"C\"\s+)*fn\s+(\w+)")
IMPL = re.compile(r"^impl\b(?:<[^{]*?>)?\s+(.*?)\s*(?:\{|where\b|$)")
TRAIT = re.compile(r"^(?:pub(?:\([\w:]+\))?\s+)?trait\s+(\w+)")
TYPE = re.compile(r"(?m)^(?:pub(?:\([\w:]+\))?\s+)?(?:struct|enum|union)\s+(\w+)")
CYCLE = re.compile(r"#\[cycle\((\w+)\)\]")


class Function:
    """A function: its file, its first line (comments and attributes with it) and its last, counted from 1, and its path."""

    def __init__(self, file, first, last, path, lines, owner):
        self.file, self.first, self.last, self.path = file, first, last, path
        self.text = lines[first - 1 : last]
        self.owner = owner
        head = next(found for found in map(HEAD.match, self.text) if found)
        self.indent, self.is_const = head[1], bool(head[2])
        cycle = CYCLE.search("\n".join(self.text))
        # The functions of a cycle have one proof, which stands under the cycle's name.
        self.proof = f"{path.rpartition('::')[0]}::+{cycle[1]}" if cycle else path
        self.is_in_cycle = bool(cycle)

    def name(self):
        return self.path.rpartition("::")[2]

    def is_plain(self, types):
        """Whether its body may be left out: it belongs to no trait and to no cycle, and no constant is made by it."""
        return self.may_stand_twice(types) and not self.is_in_cycle

    def may_stand_twice(self, types):
        """Whether it belongs to no trait, no constant is made by it, and it is no test."""
        of_trait = bool(self.owner) and self.owner not in types
        return not (of_trait or self.is_const or "#[test" in "\n".join(self.text))

    def body(self):
        """The places in `text` of the line that opens the body and of the one that closes it, if it is laid out so."""
        outer = (f"{self.indent} ", f"{self.indent}}}")
        opens = [at for at, line in enumerate(self.text)
                 if line.startswith(self.indent) and not line.startswith(outer) and line.rstrip().endswith("{")]
        ends = [at for at, line in enumerate(self.text) if line == f"{self.indent}}}"]
        if not opens or not ends or opens[-1] > ends[0]:
            return None
        is_laid_out = not any(line and not line.startswith(self.indent) for line in self.text[: ends[0]])
        return (opens[-1], ends[0]) if is_laid_out else None


def module_of(file):
    """The path of a file's module; that of the root file is empty."""
    path = file.removeprefix("src/").removesuffix(".rt").removesuffix("/mod").replace("/", "::")
    return "" if path in ("lib", "main") else path


def bare(text):
    """A type's last name, without its parameters."""
    return re.sub(r"<.*", "", text.strip().lstrip("&")).rpartition("::")[2].strip()


def owner_of(line):
    """What the methods of an `impl` stand under: its type's name, that of its trait, and those of the trait's types."""
    head = IMPL.match(line)
    trait, _, of = (head[1] if head else "").rpartition(" for ")
    name, _, given = trait.partition("<")
    types = [bare(it) for it in re.sub(r"<.*", "", given.rstrip(">")).split(",") if not it.strip().startswith("'")]
    return bare(of) + (bare(name) + "".join(types) if trait else "")


def first_line(lines, number):
    """The line at which the comments and attributes of the function whose head is at this line begin."""
    while number > 1 and lines[number - 2].strip() and re.match(r"\s*(#|//|[^{};]*\)\]$|[^{};]*,$)", lines[number - 2]):
        number -= 1
    return number


def functions_of(file, text, types):
    """The functions of a file, in their order."""
    lines, heads, owner, ends = text.split("\n"), [], "", {}
    for number, line in enumerate(lines, 1):
        if line.startswith("impl"):
            owner = owner_of(line)
        elif trait := TRAIT.match(line):
            owner = trait[1]
        elif line.startswith("}"):
            ends[len(heads)] = ends.get(len(heads), number)
            owner = ""
        head = HEAD.match(line)
        if head and len(head[1]) in (0, 4):
            of = owner if head[1] else ""
            module = types.get(of, module_of(file)) if of else module_of(file)
            heads.append((first_line(lines, number), "::".join(it for it in (module, of, head[3]) if it), of))
    found = []
    for at, (first, path, of) in enumerate(heads):
        before_next = heads[at + 1][0] - 1 if at + 1 < len(heads) else len(lines)
        found.append(Function(file, first, min(ends.get(at + 1, before_next), before_next), path, lines, of))
    return found


class Source:
    """The text of a crate's src/, and the functions in it."""

    def __init__(self, folder):
        self.folder, self.texts = folder, {}
        for at, _, names in os.walk(f"{folder}/src"):
            for name in names:
                if name.endswith(".rt"):
                    with open(f"{at}/{name}", encoding="utf-8") as text:
                        self.texts[os.path.relpath(f"{at}/{name}", folder)] = text.read()
        # A method's path is that of its type, wherever its `impl` stands.
        self.types = {name: module_of(file) for file, text in self.texts.items() for name in TYPE.findall(text)}

    def functions(self, file, text=None):
        return functions_of(file, self.texts[file] if text is None else text, self.types)

    def all_functions(self):
        return [function for file in self.texts for function in self.functions(file)]

    def opening_of(self, method):
        """The lines that open the `impl` in which a method stands."""
        before = self.texts[method.file].split("\n")[: method.first]
        opens = max(at for at, line in enumerate(before) if line.startswith("impl"))
        ends = next(at for at in range(opens, len(before)) if before[at].endswith("{"))
        return "\n".join(before[opens : ends + 1])

    def has_shared_proof(self, function):
        """Whether there are pages of its proof as that of a function which calls itself."""
        before, _, name = function.path.replace("::", "/").rpartition("/")
        return os.path.isdir(f"{self.folder}/proofs/{before}/+{name}")

    def is_answered(self, function):
        """Whether a page of its proof says something of a function that belongs to a cycle, but for its measure."""
        own = re.compile(rf"(?m)^(?:abbrev )?pub (?:invariant-)?{function.name()}-")
        place = f"{self.folder}/proofs/{function.proof.replace('::', '/')}"
        for at, _, names in os.walk(place):
            for name in names:
                with open(f"{at}/{name}", encoding="utf-8") as text:
                    if own.search(text.read()):
                        return True
        return False

    def proofs(self):
        """For the path of each function, under which its proof stands."""
        return {function.path: function.proof for function in self.all_functions()}
