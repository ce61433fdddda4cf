#!/usr/bin/env python3
"""Measures the gate: processor minutes by crate, of its proofs, its tests and its must-fail edits.

Start it at the top of the repository, beside the gate, and it ends when the gate ends:

    rt ci > gate.txt &
    python3 tools/gate_minutes.py > minutes.md

It waits for the `rt ci` (or `rt must-fail`) that runs in this folder, looks into /proc once a second at each `rattle` that
it started, and prints a table in Markdown. A process counts with what it took and with what its ended children took, as it
was seen last, so that up to a second of each is missing. A check in a folder `rt-edit-..` is of an edit, one with `--test` of
tests, and any other of proofs. Linking, and the runs of programs and tests, are not counted.
"""
import os
import time

KINDS = ("proofs", "tests", "edits")
TICKS = os.sysconf("SC_CLK_TCK")


class Process:
    """What /proc tells of a process."""

    def __init__(self, number):
        self.number = number
        folder = f"/proc/{number}"
        with open(f"{folder}/stat", encoding="utf-8", errors="replace") as file:
            told = file.read().rpartition(")")[2].split()
        self.parent = int(told[1])
        # its own time and that of its children that ended, of the user and of the system each
        self.seconds = sum(map(int, told[11:15])) / TICKS
        self.started = told[19]
        with open(f"{folder}/cmdline", encoding="utf-8", errors="replace") as file:
            self.words = file.read().split("\0")
        self.folder = os.readlink(f"{folder}/cwd")

    def is_gate(self):
        names = [os.path.basename(it) for it in self.words[:2]]
        return "rt" in names and bool({"ci", "must-fail"} & {*self.words}) and self.folder == os.getcwd()

    def is_check(self):
        return os.path.basename(self.words[0]) == "rattle" and "--crate-name" in self.words

    def crate(self):
        return self.words[self.words.index("--crate-name") + 1]

    def kind(self):
        if os.path.basename(self.folder).startswith("rt-edit-"):
            return "edits"
        return "tests" if "--test" in self.words else "proofs"


def processes():
    """The processes that run, by their numbers."""
    found = {}
    for name in filter(str.isdigit, os.listdir("/proc")):
        try:
            found[int(name)] = Process(int(name))
        except OSError:
            # it ended in the meantime
            pass
    return found


def seconds_with_children(process, children):
    return process.seconds + sum(seconds_with_children(it, children) for it in children.get(process.number, ()))


def sample(gate, taken):
    """Enters what each check below the gate has taken so far. Says whether the gate still runs."""
    found = processes()
    children = {}
    for it in found.values():
        children.setdefault(it.parent, []).append(it)
    below = [*children.get(gate, ())]
    while below:
        it = below.pop()
        if it.is_check():
            # (its children are counted with it)
            key = it.number, it.started, it.crate(), it.kind()
            taken[key] = max(taken.get(key, 0), seconds_with_children(it, children))
        else:
            below += children.get(it.number, ())
    return gate in found and found[gate].is_gate()


def table(taken):
    """The minutes by crate and kind, the dearest crate first."""
    minutes, checks = {}, {}
    for (_, _, crate, kind), seconds in taken.items():
        row = minutes.setdefault(crate, dict.fromkeys(KINDS, 0))
        row[kind] += seconds / 60
        if kind == "edits":
            checks[crate] = checks.get(crate, 0) + 1
    rows = sorted(minutes.items(), key=lambda it: -sum(it[1].values()))
    whole = {kind: sum(row[kind] for _, row in rows) for kind in KINDS}
    lines = ["| crate | proofs | tests | edits | checks of edits | all |", "|---|---|---|---|---|---|"]
    for name, row, count in [*((f"`{crate}`", row, checks.get(crate, 0)) for crate, row in rows), ("all", whole, sum(checks.values()))]:
        cells = [*(f"{row[kind]:.1f}" for kind in KINDS), str(count), f"{sum(row.values()):.1f}"]
        lines.append(f"| {name} | {' | '.join(cells)} |")
    return "\n".join(lines)


def main():
    gate = None
    while gate is None:
        gate = next((it.number for it in processes().values() if it.is_gate()), None)
        time.sleep(1)
    begun, taken = time.monotonic(), {}
    try:
        while sample(gate, taken):
            time.sleep(1)
    except KeyboardInterrupt:
        pass
    print(table(taken))
    print(f"\nIt took {(time.monotonic() - begun) / 60:.0f} minutes in all.")


if __name__ == "__main__":
    main()
