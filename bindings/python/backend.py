# SPDX-License-Identifier: Apache-2.0
"""Builds the wheel with the setuptools that this machine has, so that `pip wheel .` fetches nothing.

pip shows a build none of the machine's packages; this looks for them where Python and Debian have them.
"""
import importlib
import sys
import sysconfig

# What is needed, with the name of the Debian package that has it.
NEEDED = {"setuptools.build_meta": "python3-setuptools", "wheel": "python3-wheel"}
PLACES = [sysconfig.get_path("purelib"), "/usr/lib/python3/dist-packages"]


def setuptools():
    """The backend of setuptools, or an end with what lacks."""
    sys.path += PLACES
    try:
        return [importlib.import_module(name) for name in NEEDED][0]
    except Exception as fault:
        sys.exit(f"ticket-word: {fault}; a wheel needs what Debian calls {' and '.join(NEEDED.values())}, and its python3")


def build_wheel(*words, **named):
    return setuptools().build_wheel(*words, **named)
