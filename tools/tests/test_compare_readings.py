#!/usr/bin/env python3
"""Tries what compare_readings.py takes for a difference, on repositories in testtags format as the two write them.

    tools/tests/test_compare_readings.py

tools/tests/test_suse.py tries it with libsolv itself.
"""
import pathlib
import tempfile

import places

import compare_readings
from rpms_for_tests import same

OURS = """\
=Pkg: a 1 1 noarch
=Vnd: Maker
=Req: (x & y & z)
=Req: (x <IF> y <ELSE> z)
=Prq: before
=Con: smtp_daemon
=Sup: (a & (b | c))
=Prv: font(waver(brk))
=Req: here
=Fls: /etc/named
=Pkg: b 2:1 - noarch
"""
# what libsolv writes of the same, but for the last lines of the package and the last package
LIBSOLVS = """\
=Ver: 3.0
=Pkg: a 1 1 noarch
=Vnd: Maker
=Req: (x & y) & z
=Req: x <IF> (y <ELSE> z)
=Prq: before
=Con: namespace:otherproviders(smtp_daemon)
=Sup: a & b
=Sup: a & c
=Prv: a = 1-1
=Prv: font\\28waver\\28brk\\29\\29
=Req: there
=Sup: namespace:splitprovides(util + /sbin/tool)
=Pkg: c 1 1 noarch
"""
WANTED = [
    ("=Req:", "only here", "here of a"),
    ("=Req:", "only by libsolv", "there of a"),
    ("=Sup:", "only by libsolv", "namespace:splitprovides(util + /sbin/tool) of a"),
    ("a package", "only here", "b 2:1 noarch"),
    ("a package", "only by libsolv", "c 1-1 noarch"),
]


def main():
    with tempfile.TemporaryDirectory() as name:
        ours, theirs = pathlib.Path(name, "ours.repo"), pathlib.Path(name, "theirs.repo")
        ours.write_text(OURS)
        theirs.write_text(LIBSOLVS)
        lists = compare_readings.lists_of(ours), compare_readings.lists_of(theirs, compare_readings.plain_text)
        same("the differences", list(compare_readings.differences(*lists)), WANTED)
    print("as it should be")


if __name__ == "__main__":
    main()
