#!/usr/bin/env python3
"""Tells of numbers in pages that are not those that are counted.

    tools/check_numbers.py [TOP]

TOP is the top of a clone, and that of this one where it is not given. Compared are the table of docs/PROMISE.md, with what
tools/promise.py counts; how many scripts and texts of proofs docs/PROVED.md says are run, with the arguments of the programs that
run them; and how many must-fail edits there may be, and in how many crates (docs/HOWTO.md), and in how many they are
(docs/DECISIONS.md), with the edits. What differs, or is no longer said, is told on stdout, and the status is then 1.
"""
import pathlib
import re
import subprocess
import sys

# the texts of docs/PROMISE.md, and how the line of tools/promise.py on each begins
TEXTS = {"library": "library,", "run": "`run`:", "proofcheck": "`proof_run`:", "c": "the library for C:", "laws": "public laws besides:"}
ROW = re.compile(r"\| `--print (\w+)`(.*?)\| ([\d,]+) \| ([\d,]+) \| ([\d,]+) \|")
BESIDES = re.compile(r"of these ([\d,]+) definitions, ([\d,]+) lines,")


def number(text):
    return int(text.replace(",", ""))


def counted(top):
    """What tools/promise.py says of each text: definitions, lines, lines without comments; and of two, what is not in that of `run`."""
    lines = subprocess.run([sys.executable, top / "tools/promise.py"], capture_output=True, text=True, check=True).stdout.split("\n")
    numbers, besides = {}, {}
    for name, front in TEXTS.items():
        place = next(place for place, line in enumerate(lines) if line.startswith(front))
        numbers[name] = [int(word) for word in re.findall(r"\d+", lines[place])]
        if lines[place + 1].startswith("  beside"):
            besides[name] = [int(word) for word in re.findall(r"\d+", lines[place + 1])][:2]
    return numbers, besides


def promise(top):
    numbers, besides = counted(top)
    said = {row[0]: row[1:] for row in ROW.findall((top / "docs/PROMISE.md").read_text())}
    for name in TEXTS:
        if name not in said:
            yield f"docs/PROMISE.md has no row of --print {name}"
            continue
        text, *cells = said[name]
        if [number(cell) for cell in cells] != numbers[name]:
            yield f"docs/PROMISE.md: --print {name} has {numbers[name]}, and not {[number(cell) for cell in cells]}"
        beside = BESIDES.search(text)
        if name in besides and (not beside or [number(cell) for cell in beside.groups()] != besides[name]):
            yield f"docs/PROMISE.md: of --print {name} are not in the text of `run`: {besides[name]}"


def told(top, page, pattern, right, what):
    """A number in a page, by a pattern, held against a test."""
    found = re.findall(pattern, (top / page).read_text())
    if len(found) != 1:
        yield f"{page}: {len(found)} sentences on {what}"
    elif not right(number(found[0])):
        yield f"{page}: {found[0]} is not right of {what}"


def lines(top, crate):
    return len((top / "crates" / crate / "args").read_text().split())


def faults(top):
    yield from promise(top)
    scripts, proofs = lines(top, "solv_script_tests"), lines(top, "solv_proof_tests")
    yield from told(top, "docs/PROVED.md", r"runs ([\d,]+) scripts in the gate", lambda it: it == scripts, f"{scripts} scripts")
    yield from told(top, "docs/PROVED.md", r"checks ([\d,]+) texts in the gate", lambda it: it == proofs, f"{proofs} texts of proofs")
    edits = list((top / "crates").glob("*/must-fail/*.edit"))
    crates = len({edit.parent for edit in edits})
    yield from told(top, "docs/HOWTO.md", r"at most ([\d,]+) of them in at most", lambda it: len(edits) <= it, f"{len(edits)} edits")
    yield from told(top, "docs/HOWTO.md", r"of them in at most ([\d,]+) crates", lambda it: crates <= it, f"{crates} crates with edits")
    yield from told(top, "docs/DECISIONS.md", r"Must-fail edits stand in ([\d,]+) crates", lambda it: it == crates, f"{crates} crates with edits")


def main():
    top = pathlib.Path(sys.argv[1]).resolve() if sys.argv[1:] else pathlib.Path(__file__).resolve().parent.parent
    found = list(faults(top))
    print("\n".join(found) if found else "each number is right")
    return 1 if found else 0


if __name__ == "__main__":
    sys.exit(main())
