#!/usr/bin/env python3
"""Tries rpmmd_to_testtags.py on odd and malformed repositories in rpm-md, each written by hand.

    tools/tests/test_odd_repositories.py
"""
import pathlib
import tempfile

from rpmmd_for_tests import checksum, convert, filelists, named, package, primary, write
from rpms_for_tests import same

LOST = "left out, which may change the answer: "
SHARE = package(requires=named("/usr/share/f"))
PATHS = named("/usr/share/x(1)", "(/usr/share/y(1) or z)", "/etc/x(1)")
HEADING = "a package wants a name, a version, a release and an architecture, each without a blank"
NUMBER = "a package wants a number as its epoch, and a version and a release without a colon"
ROOT = "it begins with the element {}, and not with http://linux.duke.edu/metadata/{}"


def version(text):
    return primary(package(version=f"<version {text}/>"))


def requiring(*entries):
    return primary(package(requires=entries))


# what is written but for the lines =Pkg:, or else FOLDER's fault, and what is told
CASES = {
    "the list of files is missing": (
        dict(primary=primary(SHARE)),
        "=Req: /usr/share/f\n",
        LOST + "the file /usr/share/f, which some package may have: FOLDER has no list of files\n",
    ),
    "the list of files is not there": (
        dict(primary=primary(package(requires=named("/usr/share/f", "/usr/share/g"))), kinds=["primary", "filelists"]),
        "=Req: /usr/share/f\n=Req: /usr/share/g\n",
        "".join(LOST + f"the file /usr/share/{name}, which some package may have: FOLDER has no list of files\n" for name in "fg"),
    ),
    "a list of files of another time": (
        dict(primary=primary(SHARE), filelists=filelists(other=["/usr/share/f"])),
        "=Req: /usr/share/f\n",
        LOST + f"files of a package of another checksum than those of the list of packages: /usr/share/f of {checksum('other')}\n",
    ),
    "packages are missing": (
        dict(primary=primary(package(), count=3)),
        None,
        "FOLDER/repodata/primary.xml: it says that it has 3 packages, and has 1\n",
    ),
    "packages are more": (
        dict(primary=primary(package(), package("b"), count=1)),
        "",
        "FOLDER/repodata/primary.xml: it says that it has 1 packages, and has 2\n",
    ),
    "no namespaces": (
        dict(primary=primary(package().replace("rpm:", ""), namespaces="")),
        None,
        "FOLDER/repodata/primary.xml:1: " + ROOT.format("metadata", "common metadata") + "\n",
    ),
    "another namespace": (
        dict(primary=primary(package()).replace("/common", "/commom")),
        None,
        "FOLDER/repodata/primary.xml:1: " + ROOT.format("http://linux.duke.edu/metadata/commom metadata", "common metadata") + "\n",
    ),
    "no namespace in the index": (
        dict(primary=primary(package()), namespace=""),
        None,
        "FOLDER/repodata/repomd.xml:1: " + ROOT.format("repomd", "repo repomd") + "\n",
    ),
    "an empty list": (dict(primary=""), None, "FOLDER/repodata/primary.xml:1: no element found\n"),
    "parentheses in paths": (
        dict(
            primary=primary(package(files="<file>/etc/x(1)</file>"), package("b", requires=PATHS)),
            filelists=filelists(a=["/usr/share/x(1)", "/usr/share/y(1)"]),
        ),
        "=Fls: /etc/x(1)\n=Fls: /usr/share/x(1)\n=Fls: /usr/share/y(1)\n=Req: /usr/share/x(1)\n=Req: (/usr/share/y(1) | z)\n=Req: /etc/x(1)\n",
        "",
    ),
    "a blank that testsolv takes for none": (
        dict(primary=requiring(*named("b\u00a0c", "(b\u00a0c or d)"))),
        "=Req: b\u00a0c\n=Req: (b\u00a0c | d)\n",
        "",
    ),
    "a vendor with a line of its own": (dict(primary=primary(package(vendor=" A\u2028B\nC "))), "=Vnd: A\u2028B C\n", ""),
    "a blank in a path": (
        dict(primary=requiring(*named("/etc/x y"))),
        "",
        LOST + "=Req: a blank in a name or version, or too many operators: /etc/x y of a\n",
    ),
    "not equal": (dict(primary=requiring('name="b" flags="NE" epoch="0" ver="1"')), "=Req: b <> 1\n", ""),
    "flags without a version": (dict(primary=requiring('name="b" flags="EQ"', 'name="c" flags="GE" epoch="0" ver=""')), "=Req: b\n=Req: c\n", ""),
    "an unknown list": (dict(primary=primary(package(wants=named("c")))), "", LOST + "an entry of an unknown list: c of a\n"),
    "a blank in a version": (
        dict(primary=version('epoch="0" ver="1 2" rel="1"')),
        None,
        f"FOLDER/repodata/primary.xml:1: {HEADING}: a 1 2 1 noarch\n",
    ),
    "letters in an epoch": (dict(primary=version('epoch="x" ver="1" rel="1"')), None, f"FOLDER/repodata/primary.xml:1: {NUMBER}: a x:1 1 noarch\n"),
    "a colon in a version": (
        dict(primary=version('epoch="0" ver="1:2" rel="1"')),
        None,
        f"FOLDER/repodata/primary.xml:1: {NUMBER}: a 1:2 1 noarch\n",
    ),
    "a package twice": (dict(primary=primary(package(), package())), "", ""),
    "a package twice, with other lists": (
        dict(primary=primary(package(), package(requires=named("b")))),
        "=Req: b\n",
        LOST + "which of two packages is meant by a text, though their lists differ (it is the first): a 1 1 noarch\n",
    ),
    "a folder, and its name with a slash": (
        dict(primary=primary(package(files='<file type="dir">/etc/a.d</file>'), package("b", requires=named("/etc/a.d/")))),
        "=Req: /etc/a.d/\n",
        "",
    ),
    "zchunk alone": (
        dict(primary_zck=primary(package())),
        None,
        "FOLDER/repodata/repomd.xml: it has no list of the kind primary (it has primary_zck); zchunk and databases are not read\n",
    ),
    "a database alone": (
        dict(primary_db="x"),
        None,
        "FOLDER/repodata/repomd.xml: it has no list of the kind primary (it has primary_db); zchunk and databases are not read\n",
    ),
    "a condition in a condition": (
        dict(primary=requiring(*named("(a if (b if c))"))),
        "",
        LOST + "=Req: a condition in a condition: (a if (b if c)) of a\n",
    ),
    "unless as a requirement": (
        dict(primary=requiring(*named("(a unless b)"))),
        "",
        LOST + "=Req: an operator that may not stand at this place: (a unless b) of a\n",
    ),
    "a rich obsoletion and a rich provide": (
        dict(primary=primary(package(obsoletes=named("(a or b)"), provides=named("(a or b)")))),
        "",
        "".join(LOST + f"={tag}: an operator that may not stand at this place: (a or b) of a\n" for tag in ("Obs", "Prv")),
    ),
    "an empty name": (dict(primary=requiring(*named(""))), "", LOST + "=Req: a name is missing:  of a\n"),
}
# rpm's words, and the signs for them by the table of docs/FORMATS.md, "Dependencies"
SIGNED = {
    "(pkgA >= 3.2 or pkgB)": "(pkgA >= 3.2 | pkgB)",
    "(a and b and c)": "(a & b & c)",
    "(a or (b and c))": "(a | (b & c))",
    "(a if b)": "(a <IF> b)",
    "(a if (b or c) else d)": "(a <IF> (b | c) <ELSE> d)",
    "(a if (b else c))": "(a <IF> b <ELSE> c)",
    "(a with b >= 2 with b < 3)": "(a + b >= 2 + b < 3)",
    "(a without b)": "(a - b)",
    "(and or or)": "(and | or)",
    "(pkgA or (pkgB if pkgC))": "(pkgA | (pkgB <IF> pkgC))",
}


def escaped(text):
    return text.replace(">", "&gt;").replace("<", "&lt;")


def try_case(folder, what, lists, written, told):
    write(folder, **lists)
    status, text, errors = convert(folder)
    lines = "".join(line for line in text.splitlines(keepends=True) if not line.startswith("=Pkg: "))
    same(f"{what}: what is told", errors.replace(str(folder), "FOLDER"), told)
    same(f"{what}: status and lines", (status, lines), (0, written) if written is not None else (2, ""))


def main():
    with tempfile.TemporaryDirectory() as name:
        for number, (what, case) in enumerate(CASES.items()):
            try_case(pathlib.Path(name, f"case{number}"), what, *case)
        words = requiring(*named(*map(escaped, SIGNED)))
        try_case(pathlib.Path(name, "signs"), "rpm's words", dict(primary=words), "".join(f"=Req: {text}\n" for text in SIGNED.values()), "")
    print("as it should be")


if __name__ == "__main__":
    main()
