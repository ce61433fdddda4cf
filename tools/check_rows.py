#!/usr/bin/env python3
"""Tells of worked examples whose test is not there.

    tools/check_rows.py [TOP]

TOP is the top of a clone, and that of this one where it is not given. The second column of the table "Worked examples, and the
tests that run them" of docs/PROVED.md names tests: `FOLDER/worked/NAME.t` is a script that the arguments of solv_script_tests
name and whose status stands in its stored output; `NAME` of `solv_proof_tests` is one of that program's arguments;
`FUNCTION` is a #[test] function of a crate of tests, and in parentheses stand cases of its table, constants that the function's
file declares and uses, not only as what others begin with; "the stored run of `PROGRAM`" is a program with its output. Each script of a folder `worked` has a row.
What is missing is told on stdout, and the status is then 1.
"""
import pathlib
import re
import sys

HEADING = "## Worked examples, and the tests that run them"
TESTS = ("solv_call_tests", "solv_core_tests", "solv_run_tests")
SCRIPT = re.compile(r"`([\w/]+\.t)`")
PROOF = re.compile(r"`(\w+)` of `solv_proof_tests`")
RUN = re.compile(r"the stored run of `(\w+)`")
CALL = re.compile(r"`(\w+)`(?: \((`\w+`(?:, `\w+`)*)\))?")


def functions(top):
    """The test functions, each with the text of its file."""
    found = {}
    for crate in TESTS:
        for path in sorted((top / "crates" / crate / "src").glob("*.rt")):
            text = path.read_text()
            for name in re.findall(r"^#\[test\]\nfn (\w+)", text, re.M):
                found[name] = text
    return found


def rows(page):
    """The rows of the table: what is shown, and its tests."""
    lines = page.partition(HEADING + "\n")[2].partition("\n## ")[0].split("\n")
    cells = [[cell.strip() for cell in line.strip("|").split(" | ")] for line in lines if line.startswith("|")]
    return [row for row in cells[2:] if not row[0].startswith("**")]


def is_run(top, program):
    return (top / "crates" / program / "stdout").is_file()


def faults(top):
    scripts = (top / "crates/solv_script_tests/args").read_text().split()
    printed = (top / "crates/solv_script_tests/stdout").read_text().split("\n")
    proofs = (top / "crates/solv_proof_tests/args").read_text().split()
    tests, named = functions(top), set()
    table = rows((top / "docs/PROVED.md").read_text())
    if not table:
        yield "docs/PROVED.md has no table of worked examples"
    for row in table:
        if len(row) != 2 or not row[1].strip():
            yield f"a row with other columns: {row[0]}"
            continue
        shown, cell = row
        for script in SCRIPT.findall(cell):
            named.add(script)
            if script not in scripts:
                yield f"{shown}: {script} is run by no argument of solv_script_tests"
            elif not any(line[1:] == f" {script}" for line in printed):
                yield f"{shown}: no status of {script} is stored"
        cell = SCRIPT.sub("", cell)
        for name in PROOF.findall(cell):
            if name not in proofs:
                yield f"{shown}: {name} is no argument of solv_proof_tests"
        cell = PROOF.sub("", cell)
        for program in RUN.findall(cell):
            if not is_run(top, program):
                yield f"{shown}: {program} has no stored output"
        cell = RUN.sub("", cell)
        for name, cases in CALL.findall(cell):
            if name not in tests:
                yield f"{shown}: {name} is no test"
                continue
            for case in re.findall(r"\w+", cases):
                if f"const {case}:" not in tests[name] or not re.search(rf"(?<!\.\.)(?<!const )\b{case}\b", tests[name]):
                    yield f"{shown}: {case} is no case of {name}"
    for script in scripts:
        if "/worked/" in script and script not in named:
            yield f"{script} has no row"


def main():
    top = pathlib.Path(sys.argv[1]) if sys.argv[1:] else pathlib.Path(__file__).resolve().parent.parent
    found = list(faults(top))
    print("\n".join(found) if found else "each worked example has its test")
    return 1 if found else 0


if __name__ == "__main__":
    sys.exit(main())
