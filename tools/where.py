#!/usr/bin/env python3
"""Prints which files have a word, crate by crate, to find what a change of the same kind has to touch.

    tools/where.py WORD                  the files that have it, by the groups of docs/ARCHITECTURE.md
    tools/where.py WORD --beside OTHER   first what both have, which each thing of the kind wants; then what WORD alone has
    tools/where.py --top FOLDER ..       in another clone

A word is an identifier in any spelling: no_infarch_check finds noinfarchcheck too. What builds leave (out/) is not looked at.
The status is 1 where no file has the word.
"""
import os
import pathlib
import re
import sys

ENDS = (".rt", ".antt", ".h", ".c", ".py", ".md", ".1", ".3", ".edit", ".t", ".map", ".in")
NAME = re.compile(r"[A-Za-z][A-Za-z0-9_]*")


def plain(word):
    return word.replace("_", "").lower()


def files_with(top, word):
    found, wanted = set(), plain(word)
    for folder, inside, names in os.walk(top):
        inside[:] = sorted(set(inside) - {"out", "build", ".git", "__pycache__"})
        for name in names:
            path = pathlib.Path(folder, name)
            if name.endswith(ENDS) and not path.is_symlink():
                if any(plain(it) == wanted for it in set(NAME.findall(path.read_text(errors="replace")))):
                    found.add(path.relative_to(top))
    return found


def groups(top):
    """The crates in the order of the table of docs/ARCHITECTURE.md, each with its group."""
    group, of = "", {}
    for line in (top / "docs/ARCHITECTURE.md").read_text().split("\n"):
        if line.startswith("| **"):
            group = line.split("**")[1]
        elif line.startswith("| `") and group:
            of.setdefault(line.split("`")[1], group)
        elif of and not line.startswith("|"):
            break
    return of


def shown(paths, of):
    order, rows = list(of), {}
    for path in sorted(paths):
        in_crate = path.parts[0] == "crates" and len(path.parts) > 2
        crate = path.parts[1] if in_crate else "beside the crates"
        place = order.index(crate) if crate in of else len(order)
        rows.setdefault((place, of.get(crate, ""), crate), []).append(str(pathlib.Path(*path.parts[2:]) if in_crate else path))
    last = None
    for (_, group, crate), files in sorted(rows.items()):
        if group != last and group:
            print(group)
            last = group
        print(f"{'  ' if group else ''}{crate}: {' '.join(files)}")
    print(f"{len(paths)} files", end="\n\n")


def main():
    args, top, other = sys.argv[1:], pathlib.Path(__file__).resolve().parent.parent, None
    if args[:1] == ["--top"] and len(args) > 1:
        top, args = pathlib.Path(args[1]).resolve(), args[2:]
    if len(args) == 3 and args[1] == "--beside":
        args, other = args[:1], args[2]
    if len(args) != 1 or args[0].startswith("-"):
        print(__doc__, file=sys.stderr)
        return 2
    of, these = groups(top), files_with(top, args[0])
    if other is None:
        shown(these, of)
    else:
        beside = files_with(top, other)
        print(f"both, {args[0]} and {other}:")
        shown(these & beside, of)
        print(f"{args[0]} alone:")
        shown(these - beside, of)
    return 0 if these else 1


if __name__ == "__main__":
    sys.exit(main())
