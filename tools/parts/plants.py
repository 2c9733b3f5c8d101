"""Edits, and the rounds in which they are planted: each stands in a function of its own, or in a copy of one.

An edit is a file of lines `file: PATH`, `old: TEXT` and `new: TEXT`. Each `old:` text stands once in its file, in
one line, and the `new:` text that follows takes its place; a further pair applies to what the earlier ones made. An
edit that only adds a branch which returns may have a line `clause: NAME`, the clause that the branch breaks.
"""
import os
import re
import shutil

from parts.branches import REST, branch_of, has_clause, with_clause, without_rest
from parts.copies import Copy, may_branch, may_copy
from parts.functions import module_of


class BadEdit(Exception):
    """Why an edit can't be tried."""


def pairs_of(text):
    """The replacements of an edit: file, old text, new text."""
    file, old = "", None
    for line in text.split("\n"):
        if line.startswith("file: "):
            file = line[6:].strip()
        elif line.startswith("old: "):
            old = line[5:]
        elif line.startswith("new:"):
            yield file, old, line[4:].removeprefix(" ")


class Edit:
    """A wrong body: what it replaces, and the functions that it turns; where it stands in none, as a constant does, it
    is wide, since many functions read that."""

    def __init__(self, name, text, source):
        self.name, self.text = name, text
        self.lines, self.functions, self.is_wide = [], [], False
        texts = dict(source.texts)
        for file, old, new in pairs_of(text):
            self.place(file, old, new, texts, source)
        if not self.lines:
            raise BadEdit("it replaces nothing")
        self.branch = branch_of(*self.lines[0][2:]) if len(self.lines) == 1 else None
        self.clause = next((line[8:].strip() for line in text.split("\n") if line.startswith("clause: ")), "")
        if self.clause and not (self.branch and self.functions and has_clause(self.functions[0], self.clause)):
            raise BadEdit(f"it adds no branch to a function with a clause {self.clause}")

    def place(self, file, old, new, texts, source):
        if not file.startswith("src/"):
            raise BadEdit(f"{file or 'no file'} is no file of src/")
        if not old or texts.get(file, "").count(old) != 1:
            raise BadEdit(f"`{old}` stands {texts.get(file, '').count(old or chr(0))} times in {file}")
        if old == new:
            raise BadEdit(f"it leaves {file} as it is")
        number = texts[file][: texts[file].index(old)].count("\n") + 1
        inside = [it for it in source.functions(file, texts[file]) if it.first <= number <= it.last]
        self.functions += inside[-1:]
        self.is_wide = self.is_wide or not inside
        # By the line and not by the text: another edit of the round may have made the same text.
        self.lines.append((file, number, old, new))
        texts[file] = texts[file].replace(old, new)

    def paths(self):
        return {it.path for it in self.functions}

    def proofs(self):
        return {it.proof for it in self.functions}


class Planted:
    """An edit in a round, where it turns its functions or a copy of the one that it turns. In a copy to which it adds a
    branch, only what it adds counts; `is_cut` says whether the copy goes on after it."""

    def __init__(self, edit, copy=None, is_branch=False, is_cut=False):
        self.edit, self.copy, self.is_branch, self.is_cut = edit, copy, is_branch, is_cut
        self.name, self.lines, self.is_wide = edit.name, edit.lines, edit.is_wide
        self.functions = [copy] if copy else edit.functions

    def paths(self):
        return {it.path for it in self.functions}

    def proofs(self):
        return {it.proof for it in self.functions}

    def plant(self, folder, built, crate, source):
        """Puts the wrong body into a copy of the crate, a line for a line."""
        if self.copy:
            function = self.copy.function
            lines = self.turned(function.file, function.text[: function.body()[1] + 1], function.first)
            if self.is_branch:
                lines = self.branched(function, lines)
            self.copy.put(folder, lines, source)
            self.copy.put_proof(folder, built, crate)
            if self.is_cut:
                put_rest(folder, crate, function.file)
            return
        for file in sorted({file for file, *_ in self.edit.lines}):
            with open(f"{folder}/{file}", encoding="utf-8") as text:
                lines = text.read().split("\n")
            with open(f"{folder}/{file}", "w", encoding="utf-8") as text:
                text.write("\n".join(self.turned(file, lines, 1)))

    def branched(self, function, lines):
        """The lines of a copy, with what has to stand there for the branch that the edit adds."""
        at = self.lines[0][1] - function.first
        ends = lines[at].index(self.edit.branch) + len(self.edit.branch)
        if self.is_cut:
            lines = without_rest(lines, at, ends)
        return with_clause(function, lines, self.edit.clause) if self.edit.clause else lines

    def place(self):
        """Where the branch stands that the edit adds to a copy: the file, its line, and its first and its last column."""
        file, number, old, new = self.lines[0]
        line = self.copy.function.text[number - self.copy.function.first].replace(old, new)
        column = line.index(self.edit.branch) + 1
        return file, self.copy.line_of(number), column, column + len(self.edit.branch) - 1

    def turned(self, of, lines, first):
        """Lines of a file, the first of which has this number, with the wrong body in them."""
        for file, number, old, new in self.edit.lines:
            at = number - first
            if file == of and lines[at].count(old) != 1:
                raise BadEdit(f"line {number} of {file} is not what it replaces")
            if file == of:
                lines[at] = lines[at].replace(old, new)
        return lines


def rounds_of(edits, source, is_cut):
    """As few rounds as come of taking each edit into the first in which it has a function for itself, those first that can't
    have a copy."""
    rounds = []
    for edit in sorted(edits, key=lambda it: not it.is_wide and may_copy(it, source)):
        for group in rounds:
            planted = planted_in(edit, group, source, is_cut)
            if planted:
                group.append(planted)
                break
        else:
            rounds.append([planted_in(edit, [], source, is_cut)])
    return rounds


def planted_in(edit, group, source, is_cut):
    """An edit as it may be tried in one round with others: in its functions, in a copy where another turns these or where
    it only adds a branch, or not."""
    if group and (edit.is_wide or group[0].is_wide):
        return None
    beside = [other for other in group if edit.proofs() & other.edit.proofs()]
    if edit.branch and may_branch(edit, source):
        return Planted(edit, Copy(edit.functions[0], len(beside) + 1), True, is_cut)
    if all(other.copy for other in beside):
        return Planted(edit)
    return Planted(edit, Copy(edit.functions[0], len(beside) + 1)) if may_copy(edit, source) else None


REST_TEXT = f"""
// What never returns.
fn {REST}() -> ! {{
    loop {{}}
}}
"""

NOTHING = """
pub no_goal : goal.no_goal
no_goal = tt
"""


def put_rest(folder, crate, file):
    """Puts what stands for the rest of a block into a file of a copy of a crate, once."""
    with open(f"{folder}/{file}", encoding="utf-8") as text:
        before = text.read()
    if REST_TEXT not in before:
        with open(f"{folder}/{file}", "w", encoding="utf-8") as text:
            text.write(before + REST_TEXT)
        put_hole(folder, crate, "::".join(filter(None, [module_of(file), REST])))


def answer_nothing(folder, crate, planted):
    """Gives the proof of each planted function an answer to no goal. The check tries all goals as before; but since it
    refuses this answer, it doesn't write out what the open ones lack, which takes a fifth of its time."""
    for function in [it for edit in planted for it in edit.functions]:
        place = folder_of_proof(folder, function)
        if place and not os.path.isfile(f"{place}/Proof.antt"):
            os.makedirs(place, exist_ok=True)
            answers = f"{place}/Answers.antt"
            module = os.path.relpath(place, f"{folder}/proofs").replace("/", ".")
            head = "" if os.path.isfile(answers) else f"use Rattle.{crate}.proofs.{module}.Goals as goal\n"
            with open(answers, "a", encoding="utf-8") as text:
                text.write(head + NOTHING)


def folder_of_proof(folder, function):
    """Where the proof of a function stands in a copy of a crate; None where that isn't known, since it may call itself."""
    place = f"{folder}/proofs/{function.proof.replace('::', '/')}"
    before, _, name = place.rpartition("/")
    if os.path.isdir(f"{before}/+{name}"):
        return f"{before}/+{name}"
    of = getattr(function, "function", function)
    body = of.text[of.body()[0] + 1 :] if of.body() else of.text[1:]
    return None if not of.is_in_cycle and re.search(rf"\b{name}\(", "\n".join(body)) else place


HOLE = """use Rattle.{crate}.proofs.{module}.Statement.{{statement}}

pub {name}_spec : {{M : Type 1}} → statement M
{name}_spec = ?
"""


def leave_out(folder, crate, source, planted):
    """Takes body and proof from each plain function but the planted ones: those that call it take it by its contract."""
    for function in source.all_functions():
        body = function.body()
        if function.path in planted or not function.is_plain(source.types) or not body:
            continue
        write_loop(f"{folder}/{function.file}", function, body)
        put_hole(folder, crate, function.path)


def put_hole(folder, crate, path):
    """A hole for the proof of a plain function."""
    place = f"{folder}/proofs/{path.replace('::', '/')}"
    shutil.rmtree(place, ignore_errors=True)
    os.makedirs(place)
    with open(f"{place}/Proof.antt", "w", encoding="utf-8") as text:
        text.write(HOLE.format(crate=crate, module=path.replace("::", "."), name=path.rpartition("::")[2]))


def write_loop(path, function, body):
    """A body that only loops, in as many lines as before, so that what is said of others keeps its place."""
    with open(path, encoding="utf-8") as text:
        lines = text.read().split("\n")
    opens, ends = body
    first = function.first - 1 + opens + 1
    for at in range(first, function.first - 1 + ends):
        lines[at] = ""
    lines[first] = f"{function.indent}    loop {{}}"
    with open(path, "w", encoding="utf-8") as text:
        text.write("\n".join(lines))
