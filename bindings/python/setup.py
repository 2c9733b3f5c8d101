# SPDX-License-Identifier: Apache-2.0
"""Links the proved functions and the C header's loops into one shared library, which the package loads by ctypes."""
import os
import platform
import subprocess

from setuptools import Distribution, setup
from setuptools.command.build_py import build_py

HERE = os.path.dirname(os.path.abspath(__file__))
HEADER = os.environ.get("TICKET_WORD_INCLUDE_DIR", f"{HERE}/../c")
ARCHIVE = os.environ.get("TICKET_WORD_LIB_DIR", f"{HERE}/../../dist/{platform.machine()}-linux")


class Build(build_py):
    """Also compiles the shared library into the package."""

    def run(self):
        super().run()
        into = os.path.join(self.build_lib, "ticket_word")
        self.mkpath(into)
        subprocess.run(
            [
                os.environ.get("CC", "cc"), "-std=c11", "-O2", "-fPIC", "-shared", f"-I{HEADER}",
                "-o", f"{into}/libticket_word_calls.so", f"{HERE}/ticket_word/calls.c", f"{ARCHIVE}/libticket_word.a",
            ],
            check=True,
        )


class ForOneMachine(Distribution):
    """A wheel with a library is of one machine."""

    def has_ext_modules(self):
        return True


setup(license="Apache-2.0", cmdclass={"build_py": Build}, distclass=ForOneMachine)
