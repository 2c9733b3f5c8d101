"""Compiles C and links programs for aarch64: by the toolchain, with the C library of Debian's cross packages."""
import os
import shutil
import tempfile

from parts import kit
from parts.tool import ran, read_bytes

TARGET = "aarch64-unknown-linux-gnu"
LIBRARY, COMPILER = "/usr/aarch64-linux-gnu", "/usr/lib/gcc-cross/aarch64-linux-gnu/12"
# Debian's packages, in the versions that the programs of dist/ are linked with.
PACKAGES = {
    "libc6-arm64-cross": "2.36-8cross1",
    "libc6-dev-arm64-cross": "2.36-8cross1",
    "libgcc-12-dev-arm64-cross": "12.2.0-14cross1",
    "libgcc-s1-arm64-cross": "12.2.0-14cross1",
}
# What is linked, by where it stands.
LINKED = {
    f"{LIBRARY}/lib": "Scrt1.o crti.o crtn.o ld-linux-aarch64.so.1 libc.so.6 libc_nonshared.a libgcc_s.so.1 libm.so.6",
    COMPILER: "crtbeginS.o crtendS.o libgcc.a",
}
# What the toolchain's libraries call, and the toolchain has for x86_64 alone.
CALLED = f"{os.path.dirname(os.path.abspath(__file__))}/aarch64.c"
CALLED_HERE = ("libos_c.a", "liblibc_c.a")


class NotBuilt(Exception):
    """Something was refused; what was said."""


def lacking():
    query = ["dpkg-query", "-W", "-f", "${Package} ${Version}\n", *PACKAGES]
    here = ran(*query).stdout.split("\n") if shutil.which(query[0]) else []
    return [it for it in map(" ".join, PACKAGES.items()) if it not in here]


def run(words, **how):
    came = ran(*words, **how)
    if came.returncode:
        raise NotBuilt(came.stdout)


def clang():
    return f"{kit.folder()}/toolchain/bin/clang"


def compiled(source, to, *words):
    words = [*words, "-nostdinc", *(f"-isystem{folder}/include" for folder in (COMPILER, LIBRARY))]
    run([clang(), f"--target={TARGET}", "-O2", "-fPIC", "-ffunction-sections", "-fno-builtin", *words, "-c", source, "-o", to])


def linked(files, to):
    """Links a program for aarch64. The linker wants all that it takes in the folder of a toolchain."""
    with tempfile.TemporaryDirectory() as folder:
        os.symlink(os.path.dirname(clang()), f"{folder}/bin")
        os.mkdir(f"{folder}/lib")
        for place, names in LINKED.items():
            for name in names.split():
                os.symlink(f"{place}/{name}", f"{folder}/lib/{name}")
        run([f"{kit.folder()}/bin/rattle-link", "--target", TARGET, "--toolchain", folder, "-o", to, *files])


def program_of(made, folder):
    called, program = f"{folder}/called.o", f"{folder}/program"
    compiled(CALLED, called)
    linked([made, called], program)
    # (this machine's `strip` may not know the other machine)
    run(["llvm-strip", program], executable=clang())
    return read_bytes(program)
