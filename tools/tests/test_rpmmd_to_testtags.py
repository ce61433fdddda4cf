#!/usr/bin/env python3
"""Tries rpmmd_to_testtags.py on repositories that createrepo_c makes of rpms that rpmbuild builds, and on a large made one.

    tools/tests/test_rpmmd_to_testtags.py [TESTSOLV]

It wants the programs rpmbuild and createrepo_c (Debian's rpm and createrepo-c); zst is tried where there is zstd, and that the
program reads what is made where that is built, or at TESTSOLV.
"""
import contextlib
import gzip
import io
import os
import pathlib
import shutil
import subprocess
import sys
import tempfile

from places import PAGE

import testtags
from rounds import TESTSOLV
from rpmmd_for_tests import TOOL, convert
from rpms_for_tests import CONDITION, EXPECTED, MORE, OTHER, build, by_package, need, same, try_program

PACKAGES = 60_000
# reader requires a file of words, and conflicts with another one of it
SCRIPT = """\
repo rpms 0 testtags rpms.repo
system x86_64 rpm
job install provides words(en) >= 4^
nextjob
job install name reader
"""
LINES = [
    "install words-1~rc1-1.noarch@rpms",
    "problem 1 info package reader-0.6-10.5.noarch@rpms conflicts with /etc/words.old " "provided by words-1~rc1-1.noarch@rpms",
    "problem 1 solution 1 deljob install name reader",
]
INDEX = """\
<?xml version="1.0" encoding="UTF-8"?>
<repomd xmlns="http://linux.duke.edu/metadata/repo"><data type="primary"><location href="repodata/primary.xml.gz"/></data></repomd>
"""
HEAD = """\
<?xml version="1.0" encoding="UTF-8"?>
<metadata xmlns="http://linux.duke.edu/metadata/common" xmlns:rpm="http://linux.duke.edu/metadata/rpm">
"""
PACKAGE = """\
<package type="rpm">
  <name>package-{number:05}</name><arch>x86_64</arch><version epoch="0" ver="1.{number}" rel="1.fc39"/>
  <checksum type="sha256" pkgid="YES">{number:064x}</checksum>
  <summary>A package</summary><description>{description}</description><url>https://example.org/</url>
  <time file="1" build="1"/><size package="1" installed="1" archive="1"/><location href="package-{number}.rpm"/>
  <format><rpm:license>MIT</rpm:license><rpm:vendor>Example &amp; Project</rpm:vendor>
    <rpm:provides>{provides}</rpm:provides>
    <rpm:requires>{requires}<rpm:entry name="(package-00001 if package-00002)"/></rpm:requires>
    <file>/usr/bin/package-{number}</file><file>/etc/package-{number}</file></format>
</package>
"""


def repack(repository):
    """Packs the lists by zstd, as newer versions of createrepo_c do."""
    index = repository / "repodata" / "repomd.xml"
    for path in (repository / "repodata").glob("*.xml.gz"):
        subprocess.run(["zstd", "-q", "-o", path.with_suffix(".zst")], input=gzip.decompress(path.read_bytes()), check=True)
        path.unlink()
    index.write_text(index.read_text().replace(".xml.gz", ".xml.zst"))


def try_packings(folder, rpms, program):
    packings = ["gz", "bz2", "xz"] + (["zst"] if shutil.which("zstd") else [])
    for packing in packings:
        repository = folder / packing
        repository.mkdir()
        for rpm in rpms:
            shutil.copy(rpm, repository)
        made_as = packing if packing != "zst" else "gz"
        subprocess.run(["createrepo_c", "--quiet", "--no-database", "--general-compress-type", made_as, repository], check=True)
        if packing == "zst":
            repack(repository)
        status, text, errors = convert(repository)
        same(f"status and errors of {packing}", (status, errors), (0, CONDITION))
        same(f"the packages of {packing}", by_package(text), by_package(EXPECTED))
    same("docs/MAINTAINERS.md has it", text in PAGE and CONDITION in PAGE, True)
    (folder / "other.repo").write_text(OTHER)
    _, text, _ = convert(folder / "gz", "--with", folder / "other.repo")
    (folder / "rpms.repo").write_text(text)
    try_program(program, folder / "rpms.repo", SCRIPT, LINES)
    more = [lines for lines in by_package(text) if lines[0].startswith("=Enh")][0]
    same("files that another repository names", set(more) - set(EXPECTED.splitlines()), set(MORE))


def try_faults(folder):
    primary = next((folder / "xz" / "repodata").glob("*primary.xml.xz"))
    primary.write_bytes(primary.read_bytes()[:-90])
    same(
        "a list that is cut off", convert(folder / "xz")[::2], (2, f"{primary}: Compressed file ended before the end-of-stream marker was reached\n")
    )
    same("no repository", convert(folder)[::2], (2, f"{folder}/repodata/repomd.xml: No such file or directory\n"))
    broken = folder / "broken" / "repodata"
    broken.mkdir(parents=True)
    (broken / "repomd.xml").write_text(INDEX)
    entry = "<format><rpm:requires><rpm:entry name='a&#10;=Pkg: b 1 1 noarch'/></rpm:requires></format>"
    package = f"<package type='rpm'><name>a</name><arch>noarch</arch><version ver='1' rel='2'/>{entry}</package></metadata>"
    (broken / "primary.xml.gz").write_bytes(gzip.compress((HEAD + package).encode()))
    same(
        "a line feed in a name",
        convert(folder / "broken"),
        (0, "=Pkg: a 1 2 noarch\n", "left out, which may change the answer: a line feed in a name: '=Req: a\\n=Pkg: b 1 1 noarch\\n' of a\n"),
    )
    for text, fault in (
        ("<package>\n</metadata>", "4: mismatched tag"),
        (
            "<package type='rpm'><name>a</name>\n<version ver='1'/></package></metadata>",
            "4: a package wants a name, a version, a release and an architecture, each without a blank: a 1 - ",
        ),
    ):
        (broken / "primary.xml.gz").write_bytes(gzip.compress((HEAD + text).encode()))
        same("a broken list", convert(folder / "broken")[::2], (2, f"{broken}/primary.xml.gz:{fault}\n"))


def try_parts(folder):
    """A repository that one file cannot hold."""
    testtags.FULL = 47
    repository = testtags.Repository()
    for name in "abc":
        repository.package("0", (name, "1", "1", "noarch"), "", ["=Req: lib\n"])
    with contextlib.redirect_stderr(io.StringIO()) as errors:
        repository.write(folder / "parts.repo", "# made\n")
    same("what is told of parts", errors.getvalue(), f"{folder}/parts.repo has 1 more behind it, up to {folder}/parts-2.repo\n")
    parts = [(folder / name).read_text() for name in ("parts.repo", "parts-2.repo")]
    same("the parts", [(text.count("# made\n=Pkg: "), text.count("=Pkg: ")) for text in parts], [(1, 2), (1, 1)])


def try_outputs(folder):
    """What the first line says, and what cannot be written."""
    subprocess.run(
        [sys.executable, TOOL, folder / "gz", "--with", folder / "other.repo", folder / "xz", "--output", folder / "made.repo"],
        check=True,
        capture_output=True,
    )
    same(
        "the first line",
        (folder / "made.repo").read_text().split("\n")[0],
        f"# rpmmd_to_testtags.py {folder}/gz --with {folder}/other.repo {folder}/xz",
    )
    same("what it says", testtags.origin_of(folder / "made.repo"), (f"{folder}/gz", [f"{folder}/other.repo", f"{folder}/xz"]))
    same("a folder as the output", convert(folder / "gz", "--output", folder), (2, "", f"{folder}: it cannot be written, since it is a folder\n"))
    same(
        "a file in no folder",
        convert(folder / "none", "--output", folder / "none" / "x"),
        (2, "", f"{folder}/none/x: it cannot be written, since its folder is not there, or may not be written\n"),
    )


def try_large(folder):
    """A repository of the size of a distribution: time and memory."""
    (folder / "large" / "repodata").mkdir(parents=True)
    (folder / "large" / "repodata" / "repomd.xml").write_text(INDEX)
    description = "Some words that say what it is for. " * 10
    with gzip.open(folder / "large" / "repodata" / "primary.xml.gz", "wt", compresslevel=1) as primary:
        primary.write(HEAD)
        for number in range(PACKAGES):
            provides = "".join(f'<rpm:entry name="feature-{number}-{n}(x86-64)" flags="EQ" epoch="0" ver="{n}" rel="1"/>\n' for n in range(8))
            requires = "".join(f'<rpm:entry name="feature-{(number * n + 7) % PACKAGES}-{n % 8}(x86-64)"/>\n' for n in range(12))
            primary.write(PACKAGE.format(number=number, description=description, provides=provides, requires=requires))
        primary.write("</metadata>\n")
    with open(folder / "large.repo", "wb") as output:
        process = subprocess.Popen([sys.executable, TOOL, folder / "large"], stdout=output)
        _, status, used = os.wait4(process.pid, 0)
    seconds, megabytes = used.ru_utime + used.ru_stime, used.ru_maxrss // 1024
    print(f"{PACKAGES:,} packages: {seconds:.1f} s, {megabytes} MB")
    same("status of a large one", status, 0)
    same("the size of a large one", (folder / "large.repo").read_text().count("\n"), PACKAGES * 23 + 1)
    same("it takes less than 30 s of a processor and 200 MB", (seconds < 30, megabytes < 200), (True, True))


def main():
    need("rpmbuild", "createrepo_c")
    program = pathlib.Path(sys.argv[1]) if len(sys.argv) > 1 else TESTSOLV
    with tempfile.TemporaryDirectory() as name:
        folder = pathlib.Path(name)
        try_packings(folder, build(folder), program)
        try_outputs(folder)
        try_faults(folder)
        try_parts(folder)
        try_large(folder)
    print("as it should be")


if __name__ == "__main__":
    main()
