#!/usr/bin/env python3
"""Tells of must-fail edits that do not fit the files that they change.

    tools/check_edits.py

At the top of the repository. Each edit has a line `file: NAME` and then pairs of lines `old: TEXT` and `new: TEXT`; each old
text has to stand exactly once in that file of its crate, and to differ from the new one. What does not fit is told on stdout,
and the status is then 1. It proves nothing: whether the prover refuses an edit is tried by `rt must-fail`.
"""
import pathlib
import sys

ROOT = pathlib.Path(__file__).resolve().parent.parent


def misfits(path):
    """What does not fit of an edit."""
    lines = path.read_text().split("\n")
    files = [line[6:].strip() for line in lines if line.startswith("file: ")]
    olds = [line[5:] for line in lines if line.startswith("old: ")]
    news = [line[4:].removeprefix(" ") for line in lines if line.startswith("new:")]
    if len(files) != 1 or not olds or len(olds) != len(news):
        yield "it has other lines than `file`, and pairs of `old` and `new`"
        return
    file = path.parent.parent / files[0]
    if not file.is_file():
        yield f"there is no {files[0]}"
        return
    text = file.read_text()
    for old, new in zip(olds, news):
        if text.count(old) != 1:
            yield f"{text.count(old)} times in {files[0]}: {old}"
        if old == new:
            yield f"it changes nothing: {old}"


def main():
    told = False
    for path in sorted(ROOT.glob("crates/*/must-fail/*.edit")):
        for misfit in misfits(path):
            told = True
            print(f"{path.relative_to(ROOT)}: {misfit}")
    sys.exit(told)


if __name__ == "__main__":
    main()
