#!/usr/bin/env python3
"""Writes a testtags repository of about so many megabytes, two thirds of whose lines were there before.

Usage: make_testtags.py [MEGABYTES] > big.repo

The lines are those of a distribution's repository: packages with an architecture and a vendor, sonames that many require,
versioned requirements on the packages themselves, file paths, conflicts and obsoletions. The same number gives the same file.
"""
import random
import sys


def package_lines(number, draw):
    name = f"package-{number:06d}"
    yield f"=Pkg: {name} {draw.randrange(1, 9)}.{draw.randrange(0, 40)}.{number % 17} {number % 5 + 1}.fc39 x86_64"
    yield f"=Prv: lib{name}.so.{number % 3}()(64bit)"
    yield f"=Prv: {name}(x86-64) = {number % 9}.{number % 40}-1.fc39"
    yield "=Vnd: Fedora Project"
    for _ in range(9):
        known = draw.randrange(0, max(1, number // 40))
        yield f"=Req: libpackage-{known:06d}.so.{known % 3}()(64bit)"
    yield "=Req: rpmlib(CompressedFileNames) <= 3.0.4-1"
    yield "=Prq: /bin/sh"
    yield f"=Fls: /usr/bin/{name}"
    if number % 10 == 0:
        yield f"=Con: {name}-legacy < {number % 7 + 1}"
        yield f"=Obs: {name}-old < {number % 5 + 1}.0-1"


def main():
    wanted = int(float(sys.argv[1] if len(sys.argv) > 1 else 15) * 1_000_000)
    draw = random.Random(1)
    written = number = 0
    while written < wanted:
        text = "".join(line + "\n" for line in package_lines(number, draw))
        sys.stdout.write(text)
        written += len(text)
        number += 1


if __name__ == "__main__":
    main()
