"""Copies of functions, for rounds in which more than one edit turns the same function.

A copy stands at the end of the function's file, under a name of its own, with its contract and its proof. Nothing
calls it, so it stands for the function where its body is turned. A copy belongs to no cycle: it calls its function, and
those of the cycle that this belongs to, by their contracts.
"""
import os
import re
import shutil

from parts.functions import CYCLE


class Copy:
    """The copy of a function that has this number; `first` and `last` are known once it stands in its file."""

    def __init__(self, function, number):
        self.function, self.file = function, function.file
        self.name = f"{function.name()}_copy_{number}"
        self.path = f"{function.path.rpartition('::')[0]}::{self.name}".removeprefix("::")
        self.proof = self.path
        self.first = self.last = self.shift = 0

    def put(self, folder, lines, source):
        """Puts the copy into a copy of the crate, with these lines as its text."""
        name = re.compile(rf"\bfn {self.function.name()}\b")
        # A line for a line.
        lines = ["" if CYCLE.search(line) else name.sub(f"fn {self.name}", line) for line in lines]
        opening = source.opening_of(self.function).split("\n") if self.function.indent else []
        lines = [*opening, *lines, "}"] if opening else lines
        with open(f"{folder}/{self.file}", encoding="utf-8") as text:
            before = text.read().rstrip("\n").split("\n")
        self.first, self.last = len(before) + 1, len(before) + len(lines)
        self.shift = len(before) + len(opening) + 1 - self.function.first
        with open(f"{folder}/{self.file}", "w", encoding="utf-8") as text:
            text.write("\n".join([*before, *lines, ""]))

    def line_of(self, number):
        """The line at which the copy has what its function has at this one."""
        return number + self.shift

    def put_proof(self, folder, built, crate):
        """Puts the function's proof, as it stands in the crate, under the name of the copy."""
        old, new = (path.replace("::", "/") for path in (self.function.path, self.path))
        if not os.path.isdir(f"{built}/proofs/{old}"):
            return
        shutil.copytree(f"{built}/proofs/{old}", f"{folder}/proofs/{new}")
        module, own = (f"Rattle.{crate}.proofs.{path.replace('/', '.')}" for path in (old, new))
        spec = self.function.name()
        for at, _, names in os.walk(f"{folder}/proofs/{new}"):
            for file in names:
                with open(f"{at}/{file}", encoding="utf-8") as text:
                    proof = text.read()
                proof = re.sub(rf"{re.escape(module)}(?=[. ])", own, proof)
                proof = re.sub(rf"\b{spec}_spec\b", f"{self.name}_spec", proof)
                with open(f"{at}/{file}", "w", encoding="utf-8") as text:
                    text.write(proof)


def may_copy(edit, source):
    """Whether an edit may turn a copy: it turns one function, which belongs to no trait and either doesn't call itself or
    belongs to a cycle whose proof answers none of its goals."""
    if edit.is_wide or len(edit.paths()) != 1:
        return False
    function = edit.functions[0]
    body = function.body()
    if body is None or not function.may_stand_twice(source.types):
        return False
    if function.is_in_cycle:
        return not source.is_answered(function)
    return not calls(function.text[body[0] + 1 :], function.name())


def may_branch(edit, source):
    """Whether an edit may turn a copy of which only what it adds counts: it turns one function, which belongs to no trait,
    and what is written of its proof is written of it alone."""
    function = edit.functions[0]
    if len(edit.paths()) != 1 or function.body() is None or not function.may_stand_twice(source.types):
        return False
    return not source.is_answered(function) if function.is_in_cycle else not source.has_shared_proof(function)


def calls(lines, name):
    """Whether these lines call a function of this name, by the name alone or as one of `self`."""
    return re.search(rf"(?:(?<![\w.:])|\bself\.|\bSelf::){name}\(", "\n".join(lines)) is not None
