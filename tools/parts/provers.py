"""How many seconds of a processor the provers take that run below this process, by their crates; and the page that tells them."""
import collections
import datetime
import os
import re
import threading
import time

from parts.asking import used
from parts.crates import crates_of
from parts.tool import TOP, ran

KINDS = ("proof", "tests", "edits")
PAGE = """# The seconds of the gate

For whoever changes a crate: how many seconds of a processor do its proof, its tests and its wrong bodies take? [MAINTAINING.md](MAINTAINING.md#the-gate-and-its-time) says what makes a proof slow. `.ci/run --seconds` writes this page.

{when}, commit {commit}: the gate took {minutes:.0f} minutes {seconds:.0f} seconds and {used:,.0f} seconds of a processor, with {crates} crates on {processors} processors{kept}.

## Stages

Those beside the proofs take what time these leave.

| Stage | Seconds | Of a processor |
|---|---|---|
{stages}

## Crates

| Crate | Proof | Tests | Wrong bodies |
|---|---|---|---|
{rows}
| all | {sums} |

The other {rest:,.0f} seconds went to linking, to the runs of programs and tests, and to the scripts.
"""


class Provers(threading.Thread):
    """Looks at the running provers every half second. `spent` has each by its number and its crate, with what it proves."""

    def __init__(self):
        super().__init__(daemon=True)
        self.spent = {}

    def run(self):
        while True:
            self.look()
            time.sleep(0.5)

    def look(self):
        listed = [line.split(None, 2) for line in ran("ps", "-ewwo", "pid=,ppid=,args=").stdout.splitlines()]
        parents, root = {pid: (parent, words) for pid, parent, words in listed}, str(os.getpid())
        for pid, _, words in listed:
            crate, above = re.match(r"\S*/rattle .*--crate-name (\w+)", words), [pid]
            while above[-1] in parents and above[-1] != root:
                above.append(parents[above[-1]][0])
            if crate and above[-1] == root:
                is_edit = any("tools/edits" in parents[it][1] for it in above)
                is_test = re.search(r" --test |_tests\.o( |$)", words)
                kind = "edits" if is_edit else "tests" if is_test else "proof"
                self.spent[pid, crate[1]] = crate[1].removesuffix("_tests"), kind, used(pid)

    def page(self, seconds, whole, stages):
        """The page, of a gate that took so many seconds, and so many of a processor. What was kept isn't proved, so it is in no
        row."""
        table, crates = collections.Counter(), crates_of(TOP)
        for crate, kind, of_prover in self.spent.values():
            table[crate, kind] += of_prover
        of_crates = {name: [table[name, kind] for kind in KINDS] for name in crates}
        mine = sorted((name for name in crates if any(of_crates[name])), key=lambda name: (-sum(of_crates[name]), name))
        rows = [f"| {name} | {' | '.join(f'{it:.0f}' if it else '' for it in of_crates[name])} |" for name in mine]
        sums, kept = [sum(column) for column in zip(*of_crates.values())], sum(not table[name, "proof"] for name in crates)
        return PAGE.format(
            when=datetime.date.today().isoformat(), commit=ran("git", "rev-parse", "--short", "HEAD", cwd=TOP).stdout.strip(),
            minutes=seconds // 60, seconds=seconds % 60, used=whole, crates=len(crates), processors=len(os.sched_getaffinity(0)),
            kept=f"; {kept} of them were kept" if kept else "", stages="\n".join(stages), rows="\n".join(rows),
            sums=" | ".join(f"{it:,.0f}" for it in sums), rest=whole - sum(sums),
        )
