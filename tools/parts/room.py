"""A room: a copy of some crates and of all below them, which `rt ci` proves there, unless they stand built in the
repository itself. What the toolchain keeps on the machine serves here too."""
import contextlib
import os
import shutil
import subprocess
import tempfile

from parts.crates import below_all, files_of
from parts.tool import AS_ONE, write

LEFT_OUT = shutil.ignore_patterns("out", "must-fail", "edits")


class NotProved(Exception):
    """Some crate of a room was refused; what was said."""


def laid(top, names, crates, room):
    kin = below_all(names, crates)
    os.makedirs(f"{room}/.git")
    write(f"{room}/crates.txt", "".join(crates[name].line for name in kin))
    shutil.copy(f"{top}/HANDLES", room)
    for name in kin:
        shutil.copytree(f"{top}/crates/{name}", f"{room}/crates/{name}", ignore=LEFT_OUT)


def stand(top, names, crates):
    """Whether these crates and those below them stand proved and built in the repository itself: each is newer than all
    that it is made of."""
    built = {}
    for name in below_all(names, crates):
        folder = f"{top}/crates/{name}"
        is_program = os.path.isfile(f"{folder}/src/main.rt")
        # A library is a folder, and each has this file.
        made = f"{folder}/out/{name}" if is_program else f"{folder}/out/rlib/{name}.rlib/format"
        if not os.path.isfile(made):
            return False
        built[name] = os.stat(made).st_mtime_ns
        files = [f"{top}/crates.txt", f"{top}/HANDLES", *(f"{folder}/{path}" for path in files_of(folder))]
        below = [built[it] for it in crates[name].libraries if it in crates]
        if built[name] <= max([*below, *(os.stat(path).st_mtime_ns for path in files)]):
            return False
    return True


def built(top, names, crates):
    """Where these crates and those below them stand proved and built: in the repository itself, or in a room."""
    return contextlib.nullcontext(top) if stand(top, names, crates) else proved(top, names, crates)


@contextlib.contextmanager
def proved(top, names, crates, tell=lambda name: None):
    """A room with these crates and those below them proved and built; `tell` is told of each that is done."""
    # (`rt` sweeps away folders of this name that a killed run left)
    with tempfile.TemporaryDirectory(prefix=f"rt-copy-{os.getpid()}-") as room:
        laid(top, names, crates, room)
        prove(room, tell)
        yield room


def prove(room, tell):
    said = []
    with subprocess.Popen(["rt", "ci"], cwd=room, **AS_ONE) as command:
        try:
            for line in command.stdout:
                said.append(line)
                told = line.split()
                if told[:1] == ["rt:"] and (told[2:] == ["proved"] or told[2:4] == ["is", "kept:"]):
                    tell(told[1])
        except BaseException:
            command.terminate()
            raise
    if command.returncode:
        raise NotProved("".join(said))
