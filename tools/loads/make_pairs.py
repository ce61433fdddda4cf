#!/usr/bin/env python3
"""Writes a script with N problems of two jobs each: to install two packages that conflict.

    tools/loads/make_pairs.py 2000 > pairs.t
"""
import sys


def lines(count):
    yield "repo system 0 testtags <inline>"
    yield "#>=Ver: 3.0"
    yield "repo available 0 testtags <inline>"
    yield "#>=Ver: 3.0"
    for pair in range(count):
        yield f"#>=Pkg: a{pair} 1 1 x86_64"
        yield f"#>=Prv: a{pair} = 1-1"
        yield f"#>=Con: b{pair}"
        yield f"#>=Pkg: b{pair} 1 1 x86_64"
        yield f"#>=Prv: b{pair} = 1-1"
    yield "system x86_64 rpm system"
    for pair in range(count):
        yield f"job install name a{pair}"
        yield f"job install name b{pair}"


if len(sys.argv) != 2 or not sys.argv[1].isdigit():
    sys.exit(__doc__)
print("\n".join(lines(int(sys.argv[1]))))
