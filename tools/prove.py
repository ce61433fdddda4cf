#!/usr/bin/env python3
"""Proves what the programs and the library for C are made of, and nothing else.

    tools/prove.py

In the top folder of the repository. The crates below `testsolv`, `proofcheck` and `gachuswi` are copied to a folder of their own without
their must-fail edits, and `rt ci` proves them there, those first that most others wait for, and runs both programs. These it leaves as
crates/testsolv/out/testsolv and crates/proofcheck/out/proofcheck. The toolchain keeps what it proved, so that the next `rt ci` need not
prove it again; `rt run` and `rt lib` look at each crate once more. The last line is that of `rt ci`, and the status too.
"""
import os
import pathlib
import shutil
import subprocess
import sys
import tempfile

PROGRAMS = ("testsolv", "proofcheck")
GOALS = (*PROGRAMS, "gachuswi")


def libraries_of(line):
    """The crate that a line of crates.txt names, or nothing, and what stands below it."""
    name, _, below = line.partition("#")[0].partition(":")
    return (name.split() or [None])[0], below.split()


def closure(lines):
    """The goals and all crates below them."""
    below, wanted, waiting = dict(map(libraries_of, lines)), set(), list(GOALS)
    while waiting:
        name = waiting.pop()
        if name in below and name not in wanted:
            wanted.add(name)
            waiting += below[name]
    return wanted


def copy(top, folder):
    """Copies what is to be proved, as it stands, to the folder."""
    lines = pathlib.Path(top, "crates.txt").read_text(encoding="utf-8").splitlines()
    wanted = closure(lines)
    kept = [line for line in lines if libraries_of(line)[0] in wanted]
    pathlib.Path(folder, "crates.txt").write_text("".join(f"{line}\n" for line in kept), encoding="utf-8")
    shutil.copy(f"{top}/HANDLES", folder)
    for name in sorted(wanted):
        shutil.copytree(f"{top}/crates/{name}", f"{folder}/crates/{name}", symlinks=True, ignore=shutil.ignore_patterns("must-fail", "out"))
    # rt ci wants to stand at the top of a repository
    os.mkdir(f"{folder}/.git")


def bring(folder, top):
    """Copies the programs that were built in the folder to their places at the top."""
    for name in PROGRAMS:
        place = f"crates/{name}/out"
        os.makedirs(f"{top}/{place}", exist_ok=True)
        shutil.copy(f"{folder}/{place}/{name}", f"{top}/{place}/{name}")


def main():
    if len(sys.argv) != 1 or not os.path.exists("crates.txt"):
        sys.exit(__doc__)
    with tempfile.TemporaryDirectory(prefix="gachuswi-") as folder:
        copy(os.getcwd(), folder)
        status = subprocess.run(["rt", "ci"], cwd=folder, check=False).returncode
        if status == 0:
            bring(folder, os.getcwd())
        sys.exit(status)


main()
