"""Where the programs are, and what asks them."""
import math
import os
import platform
import resource
import signal
import subprocess
import sys

from parts.tool import TOP, ran

NAMES = ("ticketc", "ticklab")
READY = f"{TOP}/dist/{platform.machine()}-linux"


def program(name):
    """The program in the folder that TICKET_PROGRAMS names; where it names none, the one that was built here, else the one
    that lies ready in dist/."""
    built = f"{TOP}/crates/{name}/out"
    folder = os.environ.get("TICKET_PROGRAMS") or (built if os.access(f"{built}/{name}", os.X_OK) else READY)
    return f"{folder}/{name}"


class TookTooLong(Exception):
    """The program did not end in its time."""


def used(process):
    """The seconds of a processor that a process has used; 0 of one that has just ended."""
    try:
        with open(f"/proc/{process}/stat", "rb") as text:
            fields = text.read().rpartition(b")")[2].split()
    except OSError:
        return 0
    return (int(fields[11]) + int(fields[12])) / os.sysconf("SC_CLK_TCK")


def program_of_sources(name):
    """The path of the program in dist/ where that is of the sources that stand here, else of the one that was built."""
    script = 'top=$1; . "$top/tools/program.sh"; is_ready "$2" && program=$ready/$2 || find_program "$2" && echo "$program"'
    found = ran("sh", "-c", script, "sh", TOP, name, stderr=subprocess.PIPE)
    if found.returncode:
        sys.exit(found.stderr.strip() or f"{name}: neither was it built here, nor is the one in dist/ of these sources")
    return found.stdout.strip()


def asking(name, *words, place=None):
    """What asks a program, with these words in front and in a folder, and answers the status and both outputs."""
    asker, path = Asker(place=place), program(name)

    def ask(more, given):
        try:
            status, output, told = asker.answer(path, (name, *words, *more), given)
        except TookTooLong:
            return "none in its time", b""
        return status, output + told

    return ask


class Asker:
    """Asks a program, which may use so many seconds of a processor, and on a busy machine take ten times as long; in a folder,
    and with limits by their kind in `resource`."""

    def __init__(self, patience=60, place=None, limits=()):
        self.patience, self.place, self.limits = patience, place, limits
        # (the kernel ends by the same signal what has used its seconds of a processor)
        signal.signal(signal.SIGALRM, lambda _number, _frame: self.running.send_signal(signal.SIGXCPU))

    def limit(self):
        for kind, most in self.limits:
            resource.setrlimit(kind, (most, most))

    def answer(self, path, words, given):
        """The status, the output, and what is told on standard error."""
        ends = {"stdin": subprocess.PIPE, "stdout": subprocess.PIPE, "stderr": subprocess.PIPE}
        how = {"env": {}, "cwd": self.place, "preexec_fn": self.limit if self.limits else None}
        _, most = resource.getrlimit(resource.RLIMIT_CPU)
        with subprocess.Popen(words, executable=path, **ends, **how) as self.running:
            resource.prlimit(self.running.pid, resource.RLIMIT_CPU, (math.ceil(self.patience), most))
            # (a limit of `communicate` would have it look again and again)
            signal.alarm(math.ceil(10 * self.patience))
            output, told = self.running.communicate(given)
            signal.alarm(0)
        if self.running.returncode == -signal.SIGXCPU:
            raise TookTooLong
        return self.running.returncode, output, told
