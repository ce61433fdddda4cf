#!/usr/bin/env python3
"""Makes a repository that testsolv reads of the packages that are installed in a root.

    gachuswi-tools rpmdb_to_testtags [--root DIR] [--dbpath PATH] [--with OTHER ..] [--output FILE]

The packages are asked for by `rpm --root DIR -qa`, with --dbpath where the root keeps its database elsewhere than this rpm, as
in /usr/lib/sysimage/rpm, and written in testtags format (docs/FORMATS.md): version, architecture, vendor, and what they
provide, require, conflict with, obsolete, recommend, suggest, supplement and enhance, with versions and rich texts, and what
SUSE says in names as rpmmd_to_testtags.py writes it. What a package required for its installation alone is left out: rpm does
not ask for it any more. Of their files those are written that a dependency of a package here names, or one of an OTHER: a
repository in testtags format. A comment in front says what the repository was made of, and with which others.

What the format cannot hold is left out, and told on the error stream: each kind once, with how often it stood there and its
first example. Keys, which rpm keeps as packages of the name gpg-pubkey, are left out too.
"""
import pathlib
import shutil
import subprocess
import sys

import testtags
from dependencies import BY_BITS

# a tag of testtags, and rpm's name for it
LISTS = {
    "Prv": "PROVIDE",
    "Req": "REQUIRE",
    "Con": "CONFLICT",
    "Obs": "OBSOLETE",
    "Rec": "RECOMMEND",
    "Sug": "SUGGEST",
    "Sup": "SUPPLEMENT",
    "Enh": "ENHANCE",
    "Ord": "ORDER",
}
HEADING = "Pkg\t%|EPOCH?{%{EPOCH}}|\t%{NAME}\t%{VERSION}\t%{RELEASE}\t%{ARCH}\t%|VENDOR?{%{VENDOR}}|\n"
FORMAT = (
    HEADING
    + "".join(f"[{tag}\t%{{{name}FLAGS}}\t%{{{name}NAME}}\t%{{{name}VERSION}}\n]" for tag, name in LISTS.items())
    + "[Fls\t%{FILENAMES}\n]End\n"
)
# rpm's flags of a requirement that is due before the package: PREREQ, SCRIPT_PRE and SCRIPT_POST
EARLY = 1 << 6 | 1 << 9 | 1 << 10
# flags of what binds at the installation alone (PRETRANS, POSTTRANS, SCRIPT_PRE, SCRIPT_POST, RPMLIB, KEYRING), and of what binds
# longer for all that (SCRIPT_PREUN, SCRIPT_POSTUN, META), as rpm takes it
TRANSIENT, LASTING = 1 << 5 | 1 << 7 | 1 << 9 | 1 << 10 | 1 << 24 | 1 << 26, 1 << 11 | 1 << 12 | 1 << 29


class Installed:
    """What rpm prints, taken line by line into a repository."""

    def __init__(self, repository):
        self.repository, self.heading, self.lines = repository, None, []
        self.progress = testtags.Progress("packages")

    def line(self, words):
        match words:
            case ["Pkg", *heading]:
                self.heading, self.lines = heading, []
            case ["Fls", path]:
                self.lines.append(f"=Fls: {path}\n")
            case ["Ord", _, name, _]:
                self.repository.leave_out("what comes first if both come (OrderWithRequires)", name, "")
            case [tag, flags, name, version] if tag in LISTS:
                self.entry(tag, int(flags), name, version)
            case ["End"]:
                self.package(*self.heading)
            case _:
                raise ValueError("rpm printed a line with a tab or a line feed in a name: " + " ".join(words))

    def entry(self, tag, flags, name, version):
        if tag == "Req" and flags & TRANSIENT and not flags & LASTING:
            self.repository.leave_out("what was required for the installation alone", f"{name} of {self.heading[1]}", "")
            return
        comparison = BY_BITS.get(flags & 14)
        text = f"{name} {comparison} {version.removeprefix('0:')}" if comparison and version else name
        self.lines.append(f"={'Prq' if tag == 'Req' and flags & EARLY else tag}: {text}\n")

    def package(self, epoch, name, version, release, arch, vendor):
        if name == "gpg-pubkey":
            self.repository.leave_out("a key", f"{name}-{version}-{release}", "")
            return
        self.repository.package(epoch, (name, version, release, arch), vendor, self.lines)
        self.progress.step()


def main(given):
    if not shutil.which("rpm"):
        raise testtags.Fault("there is no program rpm: install the package rpm")
    if not given.root.is_dir():
        raise testtags.Fault(f"{given.root}: it is no folder")
    testtags.expect_writable(given.output)
    testtags.expect_packages(given.others)
    repository = testtags.Repository()
    installed = Installed(repository)
    place = ["--dbpath", given.dbpath] if given.dbpath else []
    command = ["rpm", "--root", given.root.resolve(), *place, "-qa", "--queryformat", FORMAT]
    with subprocess.Popen(command, stdout=subprocess.PIPE, **testtags.UTF) as process:
        for number, line in enumerate(process.stdout, 1):
            try:
                installed.line(line.rstrip("\n").split("\t"))
            except ValueError as error:
                process.kill()
                raise testtags.Fault(f"rpm -qa:{number}: {error}")
    installed.progress.end()
    if process.returncode != 0:
        raise testtags.Fault(f"{given.root}: rpm -qa ended with status {process.returncode}")
    for other in given.others:
        repository.named |= testtags.named_files(other)
    if not installed.heading:
        print(f"{given.root}: no package is installed, or the database is elsewhere (--dbpath)", file=sys.stderr)
    repository.write(given.output, testtags.origin(__file__, given.root, given.others))
    repository.tell()
    return 0


if __name__ == "__main__":
    arguments = testtags.arguments(__doc__)
    arguments.add_argument("--root", metavar="DIR", type=pathlib.Path, default=pathlib.Path("/"))
    arguments.add_argument("--dbpath", metavar="PATH")
    arguments.add_argument("--with", dest="others", metavar="OTHER", nargs="+", type=pathlib.Path, default=[])
    arguments.add_argument("--output", metavar="FILE", type=pathlib.Path)
    testtags.run(main, arguments)
