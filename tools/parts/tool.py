"""What the tools have in common: files, commands, texts in which faults are planted, words, and the last line, which counts.

A tool ends with 0 where all is as it has to be, with 1 where something isn't, and with 2 for other words.
"""
import contextlib
import glob
import importlib
import os
import shutil
import subprocess
import sys
import tempfile

# The packages in whose modules faults are planted.
PACKAGES = ("bent_parts", "search_parts")
TOP = os.path.dirname(os.path.dirname(os.path.dirname(os.path.abspath(__file__))))
# How a command is run that reads nothing, and whose outputs are told as one.
AS_ONE = {"stdin": subprocess.DEVNULL, "stdout": subprocess.PIPE, "stderr": subprocess.STDOUT, "text": True, "errors": "replace"}


def read(path):
    """The text of a file; its path begins at the top of the repository, unless it is a whole one."""
    with open(os.path.join(TOP, path), encoding="utf-8") as file:
        return file.read()


def read_bytes(path):
    with open(os.path.join(TOP, path), "rb") as file:
        return file.read()


def sources(crate="*"):
    """The files of a crate's src/, or of all but those of tests, each with the name of its crate."""
    paths = sorted(glob.glob(f"crates/{crate}/src/**/*.rt", root_dir=TOP, recursive=True))
    return {path: path.split("/")[1] for path in paths if not path.startswith("crates/tests_")}


def write(path, content, mode=0o644):
    """Writes a text or bytes, with the folders above the file."""
    path = os.path.join(TOP, path)
    os.makedirs(os.path.dirname(path), exist_ok=True)
    with open(path, "wb") as file:
        file.write(content if isinstance(content, bytes) else content.encode())
    os.chmod(path, mode)


def plant(path, old, new):
    """Puts another text in place of the first that stands so in a file."""
    text = read(path)
    assert old in text, f"{path}: no {old}"
    write(path, text.replace(old, new, 1), os.stat(os.path.join(TOP, path)).st_mode & 0o777)


def ran(*words, **how):
    """What came of a command. It reads nothing, and both its outputs are told as one."""
    return subprocess.run(words, **{**AS_ONE, **how})


def stripped(program):
    """The bytes of a program without its symbols."""
    with tempfile.TemporaryDirectory() as folder:
        subprocess.run(["strip", "-o", f"{folder}/stripped", program], check=True)
        return read_bytes(f"{folder}/stripped")


class Texts(dict):
    """The texts of the repository, each read once; what is put here stands for the file."""

    def __missing__(self, path):
        self[path] = read(path)
        return self[path]

    def planted(self, path, old, new):
        """The same with another text in place of one, which has to stand there."""
        if old not in self[path]:
            sys.exit(f"{path}: nothing can be planted, since this doesn't stand there: {old!r}")
        return Texts(self, **{path: self[path].replace(old, new)})


def told_otherwise(cases):
    """Of cases those that are told otherwise. Each is what is planted, all that is told of it, and words of what has to be told;
    None where nothing may be."""
    for what, told, wanted in cases:
        seen = []
        for it in told:
            seen.append(it)
            if wanted is not None and wanted in it:
                break
        else:
            if wanted is not None or seen:
                yield f"{what}: {wanted or 'nothing'} is wanted, and told is {seen[:3]}"


@contextlib.contextmanager
def planted_module(module, old, new):
    """Imports as if a text of a module of a package of tools/ were another."""
    # (it takes long to import this, and few tools need it)
    from unittest import mock
    others = {name: it for name, it in sys.modules.items() if not name.startswith(PACKAGES)}
    with tempfile.TemporaryDirectory() as folder, mock.patch.dict(sys.modules, others, clear=True):
        for package in PACKAGES:
            shutil.copytree(f"{TOP}/tools/{package}", f"{folder}/{package}")
        plant(f"{folder}/{module}.py", old, new)
        with mock.patch.object(sys, "path", [folder, *sys.path]):
            yield importlib.import_module


def tell(wrong, figures, missing=()):
    """Prints what is wrong and the last line, with what isn't installed here; answers the exit status."""
    wrong, without = list(wrong), f"; not here: {', '.join(dict.fromkeys(missing))}" if missing else ""
    print("\n".join([*wrong, f"{figures}{without}"]), flush=True)
    return 1 if wrong else 0


def tell_cases(name, cases):
    """The same of cases: how many there are, and which are told otherwise."""
    cases = list(cases)
    missed = list(told_otherwise(cases))
    return tell(missed, f"{name}: {len(cases)} cases, {len(missed)} are told otherwise")


def tell_plants(name, plants, faults):
    """The same of texts with plants: a path, what stands there, what is put in its place, and words of what has to be told."""
    return tell_cases(name, ((f"{it[0]}: {it[2]!r}", faults(Texts().planted(*it[:3])), it[3]) for it in plants))


def start(document, does, **options):
    """Does what the words ask for: all where there are none, else what belongs to an option, with the words behind it. The
    document of a tool tells its words behind `usage: `."""
    option, *words = sys.argv[1:] or ["--"]
    asked = {"--": does, **{f"--{name.replace('_', '-')}": it for name, it in options.items()}}.get(option)
    if asked is None or len(words) != asked.__code__.co_argcount - len(asked.__defaults__ or ()):
        wrong_words(document)
    sys.exit(asked(*words))


def wrong_words(document):
    print("usage: " + document.strip().partition("usage: ")[2].partition("\n\n")[0], file=sys.stderr)
    sys.exit(2)
