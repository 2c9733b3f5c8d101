"""Runs programs behind a library that refuses growths, disturbs reads and writes, and counts them (preloaded.c)."""
import os
import struct
import subprocess
import tempfile

from parts.tool import TOP, ran, read_bytes, write

NEVER = 2**64 - 1
# The numbers of a plan, in which nothing is refused or disturbed.
PLAN = {"first": NEVER, "last": NEVER, "asked": 0, "refused": 0, "bad_reads": 0, "bad_writes": 0, "most": NEVER, "none_at": 0,
        "reads": 0, "ends": 0, "writes": 0}
FORM = f"{len(PLAN)}Q"


def built(folder):
    """The path of the library."""
    ran("cc", "-shared", "-fPIC", "-O2", "-o", f"{folder}/preloaded.so", f"{TOP}/tools/parts/preloaded.c", check=True)
    return f"{folder}/preloaded.so"


def behind(library, words, given, **numbers):
    """What came of a program with these numbers in its plan, its status and both outputs; and the counts."""
    with tempfile.TemporaryFile() as source, tempfile.NamedTemporaryFile() as plan:
        source.write(given)
        source.seek(0)
        write(plan.name, struct.pack(FORM, *{**PLAN, **numbers}.values()))
        environment = {**os.environ, "LD_PRELOAD": library, "PRELOADED_PLAN": plan.name}
        came = subprocess.run(words, stdin=source, capture_output=True, timeout=60, env=environment)
        counts = dict(zip(PLAN, struct.unpack(FORM, read_bytes(plan.name))))
    return (came.returncode, came.stdout, came.stderr), counts
