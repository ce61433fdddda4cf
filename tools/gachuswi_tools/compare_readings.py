#!/usr/bin/env python3
"""Compares what rpmmd_to_testtags.py and libsolv read in a repository, list by list.

    gachuswi-tools compare_readings FOLDER

FOLDER has the folder repodata. libsolv reads it by its module for Python, as zypper and dnf have it read: Debian has it as
python3-solv, for the Python in /usr/bin. Each kind of difference is a line: how many entries of a list only one of the two
has, and the first of them. Supplements are compared case by case, so that `a & (b | c)` is `a & b` or `a & c`, and a conflict
with libsolv's `namespace:otherproviders(b)` is one with b, since no package conflicts with itself. Of files nothing is
compared: the converter writes those alone that are named.
"""
import argparse
import collections
import itertools
import pathlib
import re
import shutil
import tempfile

import rpmmd_to_testtags
import testtags
from dependencies import OPERATORS, Reader, Unfit

LISTS = ("Prv", "Req", "Prq", "Con", "Obs", "Rec", "Sug", "Sup", "Enh")
HERE, THERE = "only here", "only by libsolv"
OTHERS = re.compile(r"namespace:otherproviders\((.*)\)")
ESCAPED = re.compile(r"\\([0-9a-f]{2})")


def tree_of(text):
    """The tree of a dependency, or its text where it cannot be read."""
    try:
        reader = Reader(text)
        tree = reader.expression()
        return tree if reader.due() is None else text
    except Unfit:
        return text


def flat(tree):
    """A tree with words, in which a chain is one operator."""
    if isinstance(tree, str):
        return tree
    operator, operands = OPERATORS.get(tree[0], tree[0]), []
    for one in map(flat, tree[1]):
        is_chain = not isinstance(one, str) and one[0] == operator and operator in ("and", "or", "with")
        operands += one[1] if is_chain else [one]
    return operator, tuple(operands)


def cases(tree):
    """The cases of a supplement, each a set of names."""
    if isinstance(tree, str) or tree[0] not in ("and", "or"):
        return {frozenset([str(tree)])}
    parts = [cases(one) for one in tree[1]]
    if tree[0] == "or":
        return set().union(*parts)
    return {frozenset().union(*choice) for choice in itertools.product(*parts)}


def entries(tag, text):
    """What an entry of a list comes to."""
    tree = flat(tree_of(text))
    return {" and ".join(sorted(case)) for case in cases(tree)} if tag == "Sup" else {str(tree)}


def lists_of(path, plain=lambda text: text):
    """The lists of each package in a repository, their texts made plain."""
    found = collections.defaultdict(lambda: collections.defaultdict(set))
    for package, lines in testtags.packages(path):
        lists = found[package[:3]]
        lists["Vnd"].add(package.vendor)
        # (each package provides itself, whatever is listed)
        lists["Prv"].add(f"{package.name} = {package.evr}")
        for line in lines:
            if line[1:4] in LISTS:
                lists[line[1:4]] |= {plain(one) for one in entries(line[1:4], line[5:].strip())}
        lists["Req"] -= lists["Prq"]
        lists["Prv"] = {one for one in lists["Prv"] if not one.startswith("/")}
    return found


def plain_text(text):
    """What libsolv writes in its own way: parentheses in names, and what SUSE calls other providers."""
    return ESCAPED.sub(lambda match: chr(int(match[1], 16)), OTHERS.sub(r"\1", text))


def by_libsolv(folder, output):
    """Has libsolv read a repository and write it in testtags format, and gives its lists."""
    try:
        import solv
    except ImportError:
        raise testtags.Fault("there is no module solv for this Python: install python3-solv, and call the tool by /usr/bin/python3")
    places = rpmmd_to_testtags.Index(folder).read().places
    pool = solv.Pool()
    pool.setdisttype(solv.Pool.DISTTYPE_RPM)
    pool.setarch("x86_64")
    repository = pool.add_repo("read")
    for kind, flags in (("primary", 0), ("filelists", solv.Repo.REPO_EXTEND_SOLVABLES | solv.Repo.REPO_LOCALPOOL)):
        if kind in places and places[kind].exists():
            unpacked = output / f"{kind}.xml"
            with testtags.opened(places[kind]) as stream, open(unpacked, "wb") as file:
                shutil.copyfileobj(stream, file)
            if not repository.add_rpmmd(solv.xfopen(str(unpacked)), "FL" if flags else None, flags):
                raise testtags.Fault(f"{places[kind]}: libsolv cannot read it: {pool.errstr}")
    pool.addfileprovides()
    pool.createwhatprovides()
    solver = pool.Solver()
    solver.solve([])
    solver.write_testcase(str(output))
    return lists_of(output / "read.repo.gz", plain_text) if repository.nsolvables else {}


def differences(ours, theirs):
    """What only one of the two has: the package or the list, which of the two, and what it is."""
    for package in sorted(ours.keys() | theirs.keys()):
        if package not in ours or package not in theirs:
            yield "a package", HERE if package in ours else THERE, " ".join(package)
            continue
        for tag in ("Vnd", *LISTS):
            for side, mine, other in ((HERE, ours, theirs), (THERE, theirs, ours)):
                for one in sorted(mine[package][tag] - other[package][tag]):
                    yield f"={tag}:", side, f"{one} of {package[0]}"


def main(given):
    with tempfile.TemporaryDirectory() as name:
        output = pathlib.Path(name)
        rpmmd_to_testtags.main(argparse.Namespace(folder=given.folder, others=[], output=output / "here.repo"))
        ours, theirs = lists_of(output / "here.repo"), by_libsolv(given.folder, output)
    counts, example = collections.Counter(), {}
    for what, side, text in differences(ours, theirs):
        counts[what, side] += 1
        example.setdefault((what, side), text)
    for (what, side), count in counts.items():
        print(f"{count:7} {side}: {what} {example[what, side]}")
    print(f"{len(ours)} packages here, {len(theirs)} by libsolv, {sum(counts.values())} differences")
    return 1 if counts else 0


if __name__ == "__main__":
    arguments = testtags.arguments(__doc__, "the two differ")
    arguments.add_argument("folder", metavar="FOLDER", type=pathlib.Path)
    testtags.run(main, arguments)
