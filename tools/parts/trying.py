"""What one check says of the wrong bodies that are planted in it, and whether they are refused.

All that decides a verdict stands here and in the parts that this imports.
"""
import os
import shutil
import subprocess
import tempfile

from parts import kit
from parts.crates import below
from parts.functions import Source
from parts.plants import BadEdit, Edit, answer_nothing, leave_out
from parts.verdicts import Said

REFUSED, MISSED, BAD, AGAIN = "refused", "NOT REFUSED", "BAD EDIT", "again"


class Tried:
    """A crate with its edits."""

    def __init__(self, top, name):
        self.name, self.folder = name, f"{top}/crates/{name}"
        self.source = Source(self.folder)
        self.edits, self.bad = [], []
        for file in sorted(os.listdir(f"{self.folder}/edits")):
            if file.endswith(".edit"):
                self.read(file)

    def read(self, file):
        with open(f"{self.folder}/edits/{file}", encoding="utf-8") as text:
            try:
                self.edits.append(Edit(file, text.read(), self.source))
            except BadEdit as why:
                self.bad.append((file, str(why)))


class Checks:
    """The checks of rounds, over the libraries that stand built in a room."""

    def __init__(self, built, crates):
        self.built, self.crates, self.kit = built, crates, kit.folder()

    def run(self, tried, group, is_quick):
        """Plants a round in a copy of the crate, and answers what its check says. A quick one tells of no function that it
        is proved."""
        crate = f"{self.built}/crates/{tried.name}"
        # (`rt` sweeps away folders of this name that a killed run left)
        with tempfile.TemporaryDirectory(prefix=f"rt-edit-{os.getpid()}-") as folder:
            for part in ("src", "specs", "proofs"):
                if os.path.isdir(f"{crate}/{part}"):
                    shutil.copytree(f"{crate}/{part}", f"{folder}/{part}")
            words = kit.check_words(self.kit, tried.name, self.built, self.crates, below(tried.name, self.crates))
            # What many functions read is planted over all of them.
            if not group[0].is_wide:
                planted = {path for it in group for path in it.paths()}
                leave_out(folder, tried.name, tried.source, planted)
                words += [word for path in sorted(planted) for word in ("--only", path)] + ["--allow-holes"]
            for it in group:
                it.plant(folder, crate, tried.name, tried.source)
            if is_quick:
                answer_nothing(folder, tried.name, group)
            return Said(said_by(words, folder), tried.source.proofs())


def said_by(words, folder):
    """All that a check says. One that is killed, most likely for memory, is run once more."""
    for _ in range(2):
        ran = subprocess.run(
            words, cwd=folder, stdin=subprocess.DEVNULL, stdout=subprocess.PIPE, stderr=subprocess.STDOUT,
            text=True, errors="replace",
        )
        if ran.returncode >= 0:
            break
    return ran.stdout


def verdict(edit, group, said, is_quick):
    """What a check says of one edit of its round."""
    goal, wrong, end = said.goal_of(edit), said.error_at(edit), said.end_of(edit)
    is_alone = len(group) == 1
    if goal:
        return REFUSED, goal
    if wrong and not edit.is_cut:
        return BAD, wrong
    if is_quick:
        return AGAIN, ""
    if not said.is_judged or said.is_waiting(edit) or not (end or edit.is_wide):
        return (BAD, f"the check tells nothing of it: {last_line(said)}") if is_alone else (AGAIN, "")
    if said.is_answer_wrong(edit):
        return BAD, f"refused only by an error of its proof file: {end}"
    return MISSED, end or "the crate is still proved"


def last_line(said):
    return said.text.rstrip("\n").rpartition("\n")[2][:200]


def judged(group, said, is_quick):
    """Each edit of a round with its verdict, and the functions that are open though nothing was planted there."""
    found = [(edit, *verdict(edit, group, said, is_quick)) for edit in group]
    if not said.is_judged and len(group) > 1 and not any(kind == BAD for _, kind, _ in found):
        # It isn't known whose text it is that can't be read: each is tried alone.
        return [(edit, AGAIN, "") for edit in group], []
    elsewhere = said.open_elsewhere(group) if said.is_judged else []
    return [it for it in found if said.is_judged or it[1] in (BAD, AGAIN)] + [
        (edit, AGAIN, "") for edit, kind, _ in found if not said.is_judged and kind not in (BAD, AGAIN)
    ], elsewhere
