#!/usr/bin/env python3
"""Tries the scripts of tools/tests/differences/: their answers here and by libsolv's testsolv, and the tables of docs/DIFFERENCES.md.

    tools/tests/test_differences.py [TESTSOLV]

Without the word it takes the program where `rt run` builds it. A script has the answers that are expected here as its results,
and what libsolv prints in comments, `# libsolv: LINE`, where that is something else.
"""
import pathlib
import re
import subprocess
import sys

from places import TOP

from rounds import TESTSOLV, rounds_of
from rpms_for_tests import same

LIBSOLVS = pathlib.Path("/usr/bin/testsolv")
NONE, PROBLEM = ["nothing"], ["a problem"]


def told(lines):
    """An answer as the page tells it."""
    return PROBLEM if any(line.startswith("problem ") for line in lines) else lines or NONE


def expected(path):
    """The jobs of each round of a script, its answer here, and by libsolv."""
    for text in path.read_text().split("nextjob\n"):
        lines = text.split("\n")
        jobs = [line for line in lines if line.startswith(("job ", "solverflags "))]
        here = told([line[2:] for line in text.partition("result transaction,problems <inline>\n")[2].split("\n") if line.startswith("#>")])
        yield jobs, here, [line.removeprefix("# libsolv: ") for line in lines if line.startswith("# libsolv: ")] or here


def row(jobs, here, theirs):
    """A round as a row of the page's table."""
    cell = lambda lines: "<br>".join(line if line in ("nothing", "a problem", "the same") else f"`{line}`" for line in lines)
    return f"| {cell(jobs)} | {cell(here)} | {cell(['the same'] if theirs == here else theirs)} |\n"


def by_libsolv(path):
    """libsolv's answers to the rounds of a script."""
    text = subprocess.run([LIBSOLVS, "-r", path], capture_output=True, text=True).stdout
    # (it numbers the rounds where there are several)
    return [told(lines) for lines in rounds_of(re.sub(r"^test \d+:$", "nextjob", text.removeprefix("test 1:\n"), flags=re.MULTILINE))]


def main():
    program = pathlib.Path(sys.argv[1]) if len(sys.argv) > 1 else TESTSOLV
    page, scripts = (TOP / "docs" / "DIFFERENCES.md").read_text(), sorted((TOP / "tools" / "tests" / "differences").glob("*.t"))
    for path in scripts:
        rounds = list(expected(path))
        same(f"{path.name} on the page", [row(*one) for one in rounds if row(*one) not in page], [])
        same(f"{path.name}, a link", f"(../tools/tests/differences/{path.name})" in page, True)
        if LIBSOLVS.is_file():
            same(f"{path.name} by libsolv", by_libsolv(path), [theirs for _, _, theirs in rounds])
        if program.is_file():
            done = subprocess.run([program, path], capture_output=True, text=True)
            same(f"{path.name} here", (done.returncode, done.stdout, done.stderr), (0, "nextjob\n" * (len(rounds) - 1), ""))
    rows = sum(len(list(expected(path))) for path in scripts)
    same("rows of the page", len(re.findall(r"^\| `(?:job|solverflags) ", page, re.MULTILINE)), rows)
    for one in (program, LIBSOLVS):
        if not one.is_file():
            print(f"skipped: there is no program {one}")
    print("as it should be")


if __name__ == "__main__":
    main()
