#!/usr/bin/env python3
"""Writes a script of a universe for the makers of rules: names in two versions each, and a part of them installed.

Usage: make_universe.py [PACKAGES] [INSTALLED] [ROUNDS] > big.t

Each package has five requirements on packages of other names, most with a version; one in twenty has a conflict, one in
fifty an obsoletion. Every requirement is met. The script ends with a job that updates all packages or, where a number of
rounds is given, with so many rounds that install one package each. The same numbers give the same script.
"""
import random
import sys


def package_lines(name, version, names, draw):
    yield f"=Pkg: package-{name:06d} {version} 1 x86_64"
    for _ in range(5):
        other = draw.randrange(names)
        yield f"=Req: package-{other:06d}" + (" >= 1" if draw.randrange(4) else "")
    if draw.randrange(20) == 0:
        yield f"=Con: package-{draw.randrange(names):06d} < 1"
    if draw.randrange(50) == 0:
        yield f"=Obs: package-{draw.randrange(names):06d}-old < 3"


def main():
    packages = int(sys.argv[1]) if len(sys.argv) > 1 else 60_000
    installed = int(sys.argv[2]) if len(sys.argv) > 2 else 2_500
    draw = random.Random(1)
    names = packages // 2
    write = sys.stdout.write
    write("repo system 0 testtags <inline>\n")
    for name in range(0, names, max(1, names // max(1, installed))):
        write("".join(f"#>{line}\n" for line in package_lines(name, 1, names, draw)))
    write("repo available 0 testtags <inline>\n")
    for name in range(names):
        for version in (1, 2):
            write("".join(f"#>{line}\n" for line in package_lines(name, version, names, draw)))
    write("system x86_64 rpm system\n")
    if len(sys.argv) > 3:
        rounds = random.Random(7).sample(range(names), int(sys.argv[3]))
        write("nextjob\n".join(f"job install name package-{name:06d}\n" for name in rounds))
    else:
        write("job update all packages\n")


main()
