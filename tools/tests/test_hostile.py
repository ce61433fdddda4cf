#!/usr/bin/env python3
"""Tries tools/loads/hostile.py: a small script of each kind is read, and the table has its row.

    tools/tests/test_hostile.py [TESTSOLV]

Without the word it takes the program where `rt run` builds it.
"""
import io
import pathlib
import re
import subprocess
import sys
import tempfile

from places import TOP

from rounds import TESTSOLV
from rpms_for_tests import same

TOOL = TOP / "tools" / "loads" / "hostile.py"
sys.path.insert(0, str(TOOL.parent))
import hostile

# answered without and with differences; a refusal names the file and the cause
ANSWERED, REFUSED = (0, 1), 2


def script_of(kind):
    """A small script of a kind."""
    out = io.BytesIO()
    hostile.write(kind, 12, out)
    return out.getvalue()


def ended(program, folder, kind):
    """What is wrong with the end of a run on a script of the kind."""
    script = folder / f"{kind}.t"
    script.write_bytes(script_of(kind))
    done = subprocess.run([program, "-r", script], capture_output=True, text=True)
    is_refused = done.returncode == REFUSED and re.fullmatch(rf"testsolv: {re.escape(str(script))}(:\d+)?: \w+( \d+)?\n", done.stderr)
    return [] if done.returncode in ANSWERED or is_refused else [(kind, done.returncode, done.stderr)]


def main():
    program = pathlib.Path(sys.argv[1]) if len(sys.argv) > 1 else TESTSOLV
    same("the same bytes", [kind for kind in hostile.KINDS if script_of(kind) != script_of(kind)], [])
    told = subprocess.run([sys.executable, TOOL], capture_output=True, text=True).stdout
    same("the kinds", [kind for kind in hostile.KINDS if f"    {kind} " not in told], [])
    if program.is_file():
        with tempfile.TemporaryDirectory() as folder:
            same("read", [fault for kind in hostile.KINDS for fault in ended(program, pathlib.Path(folder), kind)], [])
        words = [sys.executable, TOOL, "--run", program, "-", "--kinds", "list-files", "--scale", "0.001", "--twice"]
        rows = subprocess.run(words, capture_output=True, text=True).stdout.splitlines()
        same("rows", [row.split(" | ")[1] for row in rows[2:]], ["50", "100"])
    else:
        print(f"skipped: there is no program {program}")
    print("as it should be")


if __name__ == "__main__":
    main()
