#!/usr/bin/env python3
"""Tries rpmdb_to_testtags.py on a root into which rpms are installed that rpmbuild builds.

    tools/tests/test_rpmdb_to_testtags.py [TESTSOLV]

It wants the programs rpm and rpmbuild (Debian's rpm). That the program reads what is made is tried where that is built, or at
TESTSOLV.
"""
import pathlib
import re
import subprocess
import sys
import tempfile

from places import TOOLS

from rounds import TESTSOLV
from rpmmd_for_tests import body
from rpms_for_tests import CONDITION, EXPECTED, MORE, OTHER, build, by_package, need, same, try_program

# words is to be verified, which wants nothing of rpm that is not met; without words nothing has the files of reader
SCRIPT = """\
repo system 0 testtags system.repo
system x86_64 rpm system
job verify name words
nextjob
job erase name words
"""
LINES = [
    "problem 1 info package reader-0.6-10.5.noarch@system requires /usr/bin/words, but none of the providers can be installed",
    "problem 1 info problem with installed package reader-0.6-10.5.noarch@system",
    "problem 1 solution 1 erase reader-0.6-10.5.noarch@system",
]

# where newer distributions have it; rpm of Debian looks elsewhere
PLACE = ("--dbpath", "/usr/lib/sysimage/rpm")
# what the scripts before and after the installation wanted, and rpm's own features, are asked for no more (rpm -e asks for none)
INSTALLED = EXPECTED.replace("=Prq: /bin/sh\n=Prq: /usr/sbin/register\n", "")
TOOL = TOOLS / "rpmdb_to_testtags.py"


def convert(*words):
    run = subprocess.run([sys.executable, TOOL, *words], capture_output=True, text=True)
    return run.returncode, body(run.stdout), run.stderr


def main():
    need("rpm", "rpmbuild")
    program = pathlib.Path(sys.argv[1]) if len(sys.argv) > 1 else TESTSOLV
    with tempfile.TemporaryDirectory() as name:
        folder = pathlib.Path(name)
        root = folder / "root"
        root.mkdir()
        same("an empty root", convert("--root", root, *PLACE), (0, "", f"{root}: no package is installed, or the database is elsewhere (--dbpath)\n"))
        rpms = build(folder)
        installing = ["rpm", "--root", root, *PLACE, "--justdb", "-i", "--nodeps", *rpms]
        installed = subprocess.run(installing, capture_output=True, text=True)
        same(f"status of rpm -i: {installed.stderr}", installed.returncode, 0)
        status, text, errors = convert("--root", root, *PLACE)
        told = [re.sub(r"\d+ times", "N times", line) for line in errors.splitlines(keepends=True)]
        same(
            "status and errors",
            (status, told[0], told[1], told[2].partition(" alone: ")[0]),
            (
                0,
                CONDITION,
                "left out: what comes first if both come (OrderWithRequires): words\n",
                "left out, N times: what was required for the installation",
            ),
        )
        same("the packages", by_package(text), by_package(INSTALLED))
        (folder / "other.repo").write_text(OTHER)
        _, text, _ = convert("--root", root, *PLACE, "--with", folder / "other.repo")
        same("files that another repository names", set(text.splitlines()) - set(EXPECTED.splitlines()), set(MORE))
        (folder / "system.repo").write_text(text)
        try_program(program, folder / "system.repo", SCRIPT, LINES)
        same("no root", convert("--root", folder / "none"), (2, "", f"{folder}/none: it is no folder\n"))
    print("as it should be")


if __name__ == "__main__":
    main()
