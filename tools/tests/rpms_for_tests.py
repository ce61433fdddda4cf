"""Small rpms for the tests of the converters: their spec files, and what their packages are in testtags format, by hand."""
import pathlib
import shutil
import subprocess
import sys

COMMON = """\
Summary: A package for a test
License: MIT
AutoReqProv: no
%description
A package for a test.
"""

SPECS = {
    "editor": """\
Name: editor
Epoch: 1
Version: 2.0
Release: 3.fc39
Vendor: Example  Project
Provides: viewer = 2
Requires: libtext >= 1:4.0-2
Requires(pre): /bin/sh
Requires(post): /usr/sbin/register
Requires(preun): cleaner < 3
Requires(post,preun): keeper
Requires: (spell-en if languages else spell-none)
Requires: (words with words(en) >= 4 with words(en) < 5)
Requires: /usr/share/words/en.txt
Requires: (/usr/share/words/de.txt or words-none)
Recommends: (git or git-core)
Suggests: printer <= 3
Conflicts: old-editor <= 1
Conflicts: (beta unless stable)
Obsoletes: text-editor < 2
OrderWithRequires: words
"""
    + COMMON
    + "%files\n",
    "words": """\
Name: words
Version: 1~rc1
Release: 1
BuildArch: noarch
Provides: words(en) = 4^git
Provides: words(en)(utf8)
Requires: (words-base if (languages if spell-en))
Supplements: (editor and languages)
Enhances: reader > 0.5
"""
    + COMMON
    + """\
%install
mkdir -p %{buildroot}/usr/share/words %{buildroot}/usr/bin %{buildroot}/etc
cd %{buildroot}
touch usr/share/words/en.txt usr/share/words/de.txt usr/share/words/fr.txt usr/bin/words etc/words etc/words.old
%files
/usr/share/words
/usr/bin/words
/etc/words
/etc/words.old
""",
    "reader": """\
Name: reader
Version: 0.6
Release: 10.5
BuildArch: noarch
Requires: /usr/bin/words
Requires: (words without words(de))
Conflicts: /etc/words.old
"""
    + COMMON
    + "%files\n",
}

EXPECTED = """\
=Pkg: editor 1:2.0 3.fc39 x86_64
=Vnd: Example  Project
=Prv: editor = 1:2.0-3.fc39
=Prv: editor(x86-64) = 1:2.0-3.fc39
=Prv: viewer = 2
=Req: libtext >= 1:4.0-2
=Prq: /bin/sh
=Prq: /usr/sbin/register
=Req: cleaner < 3
=Prq: keeper
=Req: (spell-en <IF> languages <ELSE> spell-none)
=Req: (words + words(en) >= 4 + words(en) < 5)
=Req: /usr/share/words/en.txt
=Req: (/usr/share/words/de.txt | words-none)
=Rec: (git | git-core)
=Sug: printer <= 3
=Con: old-editor <= 1
=Con: (beta <UNLESS> stable)
=Obs: text-editor < 2
=Pkg: reader 0.6 10.5 noarch
=Prv: reader = 0.6-10.5
=Req: /usr/bin/words
=Req: (words - words(de))
=Con: /etc/words.old
=Pkg: words 1~rc1 1 noarch
=Prv: words = 1~rc1-1
=Prv: words(en) = 4^git
=Prv: words(en)(utf8)
=Sup: (editor & languages)
=Enh: reader > 0.5
=Fls: /usr/share/words/en.txt
=Fls: /usr/share/words/de.txt
=Fls: /usr/bin/words
=Fls: /etc/words.old
"""

# a repository whose dependencies name two more files
OTHER = "=Pkg: other 1 1 noarch\n+Req:\n/etc/words\n/usr/share/words/fr.txt & other\n-Req:\n=Prv: /usr/share/words\n"
MORE = ["=Fls: /etc/words", "=Fls: /usr/share/words/fr.txt"]
CONDITION = "left out, which may change the answer: =Req: a condition in a condition: (words-base if (languages if spell-en)) of words\n"


def need(*programs):
    """Ends the test where one of the programs is not there."""
    for program in programs:
        if not shutil.which(program):
            print(f"skipped: there is no program {program}")
            sys.exit(0)


def build(folder):
    """Builds the rpms, and gives their paths."""
    top = pathlib.Path(folder, "build")
    for name, spec in SPECS.items():
        place = pathlib.Path(folder, f"{name}.spec")
        place.write_text(spec)
        command = ["rpmbuild", "-bb", "--quiet", "--target", "x86_64", "--define", f"_topdir {top}", place]
        made = subprocess.run(command, capture_output=True, text=True)
        if made.returncode != 0:
            sys.exit(f"rpmbuild of {name}: {made.stderr}")
    return sorted(top.glob("RPMS/*/*.rpm"))


def by_package(text):
    """The lines of each package, sorted, since rpm sorts entries in its own way."""
    return sorted(sorted(("=Pkg:" + package).splitlines()) for package in text.split("=Pkg:")[1:])


def try_program(program, repository, script, wanted):
    """Has testsolv answer a script over the repository of a converter, where the program is there."""
    if not program.is_file():
        print(f"skipped: there is no program {program}")
        return
    path = repository.with_suffix(".t")
    path.write_text(script)
    done = subprocess.run([program, path], capture_output=True, text=True)
    lines = done.stdout.splitlines()
    same("what testsolv says", (done.returncode, done.stderr, [line for line in wanted if line not in lines]), (0, "", []))


def same(what, found, wanted):
    if found != wanted:
        sys.exit(f"{what}: found\n{found}\nand not\n{wanted}")
