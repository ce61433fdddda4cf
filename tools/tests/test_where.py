#!/usr/bin/env python3
"""Tries tools/where.py on a small tree of its own making.

    tools/tests/test_where.py
"""
import pathlib
import subprocess
import sys
import tempfile

from places import TOP

TOOL = TOP / "tools" / "where.py"
FILES = {
    "docs/ARCHITECTURE.md": "| crate | what |\n|---|---|\n| **ground** | |\n| `low` | first |\n| **above** | |\n| `high` | second |\n\n| `other` | no crate |\n",
    "crates/low/src/flags.rt": "no_infarch_check allow_downgrade\n",
    "crates/low/specs/Flags.antt": "NoInfarchCheck\n",
    "crates/high/src/words.rt": "noinfarchcheck allowdowngrade\n",
    "crates/high/out/words.rt": "noinfarchcheck\n",
    "crates/high/src/other.rt": "noinfarchchecks\n",
    "include/some.h": "noinfarchcheck\n",
}
# the words, the status, what is printed
CASES = (
    (
        ("no_infarch_check",),
        0,
        "ground\n  low: specs/Flags.antt src/flags.rt\nabove\n  high: src/words.rt\nbeside the crates: include/some.h\n4 files\n\n",
    ),
    (
        ("noinfarchcheck", "--beside", "allowdowngrade"),
        0,
        "both, noinfarchcheck and allowdowngrade:\nground\n  low: src/flags.rt\nabove\n  high: src/words.rt\n2 files\n\n"
        "noinfarchcheck alone:\nground\n  low: specs/Flags.antt\nbeside the crates: include/some.h\n2 files\n\n",
    ),
    (("nowhere",), 1, "0 files\n\n"),
    ((), 2, ""),
    (("a", "b"), 2, ""),
)


def main():
    with tempfile.TemporaryDirectory() as folder:
        for name, text in FILES.items():
            path = pathlib.Path(folder, name)
            path.parent.mkdir(parents=True, exist_ok=True)
            path.write_text(text)
        for words, status, printed in CASES:
            done = subprocess.run([sys.executable, TOOL, "--top", folder, *words], capture_output=True, text=True)
            if (done.returncode, done.stdout) != (status, printed):
                sys.exit(f"where.py {' '.join(words)}: status {done.returncode}, and not {status}; it prints\n{done.stdout}")
    print("as it should be")


if __name__ == "__main__":
    main()
