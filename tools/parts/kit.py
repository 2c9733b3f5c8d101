"""The toolchain: where it stands, and which one it is."""
import os
import shutil
import subprocess
import sys


def folder():
    """The folder that the toolchain stands in, found by its command."""
    command = shutil.which("rt")
    if not command:
        sys.exit("the toolchain's command `rt` was not found")
    return os.path.dirname(os.path.dirname(os.path.realpath(command)))


def version():
    """What the toolchain calls itself."""
    return subprocess.run(["rt", "version"], stdout=subprocess.PIPE, text=True, check=True).stdout.strip()


def keeps():
    """Whether `rt ci` keeps on this machine what it proved, as it says in its help, so that another run doesn't prove it
    again."""
    told = subprocess.run(["rt", "help"], stdout=subprocess.PIPE, stderr=subprocess.STDOUT, text=True).stdout
    return "--anew" in told


def check_words(kit, name, top, crates, near, verb="check"):
    """The command that checks a crate, or does more, over the libraries that stand built in the repository `top`."""
    crate, kin = crates[name], near[:-1]
    words = [f"{kit}/bin/rattle", verb, "--crate-name", name, root_file(f"{top}/crates/{name}")]
    for library in ["std", *[it for it in crate.libraries if it not in crates]]:
        words += ["--extern", f"{library}={kit}/rlibs/{library}.rlib"]
    words += ["-L", f"dependency={kit}/rlibs"]
    for library in crate.libraries:
        if library in crates:
            words += ["--extern", f"{library}={top}/crates/{library}/out/rlib/{library}.rlib"]
    for library in kin:
        words += ["-L", f"dependency={top}/crates/{library}/out/rlib"]
    words += ["--antt-project", f"{kit}/rattle/logic/antt-project.json"]
    return words + ["--logic-built", f"{kit}/logic_built", "--jobs", "1"]


def root_file(folder):
    """The file that a crate's check begins with."""
    return "src/main.rt" if os.path.isfile(f"{folder}/src/main.rt") else "src/lib.rt"
