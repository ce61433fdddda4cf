#!/usr/bin/env python3
"""Tries upgrade.py on the small repositories of docs/maintainers/.

    tools/tests/test_upgrade.py [TESTSOLV]

Without the word it takes the program where `rt run` builds it.
"""
import pathlib
import subprocess
import sys
import tempfile

from places import COMPOSE as OLD, NEXT as NEW, PAGE, TOOLS

from rounds import TESTSOLV
from rpms_for_tests import same
from upgrade import CHANGES


COMPS = """\
<?xml version="1.0" encoding="UTF-8"?>
<comps>
  <group><id>mail</id><name>Mail</name><packagelist>
    <packagereq type="mandatory">sendmail</packagereq>
    <packagereq type="default">nosuch</packagereq>
    <packagereq type="optional">postfix</packagereq>
  </packagelist></group>
  <environment><id>server</id><grouplist><groupid>mail</groupid></grouplist></environment>
</comps>
"""

WEB = """\
set 1, nginx,/bin/sh: 4 packages
  it goes through: 3 upgraded, 0 new, 0 gone, 0 as they are
  changes its architecture: 1
    nginx-fonts-1.0-2.fc39.noarch@system to nginx-fonts-1.1-1.fc40.x86_64@next
  changes its vendor: 1
    nginx-1:1.24.0-4.fc39.x86_64@system (Fedora Project) to nginx-1:1.24.0-3.fc40.x86_64@next (Example Hosting)
  goes back to a lower version: 1
    nginx-1:1.24.0-4.fc39.x86_64@system to nginx-1:1.24.0-3.fc40.x86_64@next
"""

MAIL = """\
set 2, @server: 1 packages
  it goes through: 0 upgraded, 2 new, 1 gone, 0 as they are
  goes, since another package obsoletes it: 1
    sendmail-8.17.2-2.fc39.x86_64@system by postfix-2:3.8.4-1.fc40.x86_64@next
"""

CHARTS = """\
set 3, charts: 2 packages
  it does not go through: 1 problem
  problem 1:
    cannot install both libicu-73.2-2.fc39.x86_64@system and libicu-74.1-1.fc40.x86_64@next
    package charts-4.1-7.fc39.x86_64@system requires libicuuc.so.73()(64bit), but none of the providers can be installed
    problem with installed package charts-4.1-7.fc39.x86_64@system
    problem with installed package libicu-73.2-2.fc39.x86_64@system
    way out 1: keep libicu-73.2-2.fc39.x86_64@system
    way out 2: erase charts-4.1-7.fc39.x86_64@system
"""


# a machine that speaks German, and its upgrade
LANGUAGES = (
    "=Pkg: app 1 1 noarch\n=Pkg: old 1 1 noarch\n=Pkg: words 1 1 noarch\n=Sup: namespace:language(de)\n",
    "=Pkg: app 2 1 noarch\n{}=Pkg: old 1 1 noarch\n=Pkg: app-lang 2 1 noarch\n=Sup: app & namespace:language(de)\n"
    "=Pkg: old-lang 1 1 noarch\n=Sup: old & namespace:language(de)\n=Pkg: fonts 1 1 noarch\n=Sup: namespace:language(de)\n"
    "=Pkg: words 2 1 noarch\n=Sup: namespace:language(de)\n=Pkg: both 1 1 noarch\n=Sup: namespace:language(de)\n=Sup: app\n",
)
# an upgrade that one package stands in the way of, and many go with it
MANY = (
    "=Pkg: lib 1 1 noarch\n" + "".join(f"=Pkg: user{number} 1 1 noarch\n=Req: lib < 2\n" for number in range(3)),
    "=Pkg: other 2 1 noarch\n=Obs: lib\n",
)
# two kernels that stay, and a third one in the new release
KERNELS = ("=Pkg: kernel 5.1 1 x86_64\n=Pkg: kernel 5.2 1 x86_64\n=Pkg: app 1 1 noarch\n", "=Pkg: kernel 5.3 1 x86_64\n=Pkg: app 2 1 noarch\n")
KERNELS_TOLD = """\
  it goes through: 1 upgraded, 1 new, 0 gone, 2 as they are
  comes beside another version: 1
    kernel-5.3-1.x86_64@new
  stays, and no new repository has it: 2
    kernel-5.1-1.x86_64@system
    kernel-5.2-1.x86_64@system
"""
# a library that a release has as an outdated package and its updates as another one
OUTDATED = (
    "=Pkg: app 1 1 noarch\n",
    "=Pkg: python 2.6b3 1 noarch\n=Prv: libpython2.6.so\n=Pkg: app 2 1 noarch\n=Req: libpython2.6.so\n",
    "=Pkg: libpython2_6 2.6.0 1 noarch\n=Prv: libpython2.6.so\n=Pkg: python 2.6.0 1 noarch\n",
)
# a library of two architectures
TWICE = ("=Pkg: lib 1 1 i686\n=Pkg: lib 1 1 x86_64\n", "=Pkg: lib 2 1 i686\n=Pkg: lib 2 1 x86_64\n")
TWICE_TOLD = """\
  it goes through: 2 upgraded, 0 new, 0 gone, 0 as they are
  changes its architecture: 1
    lib-1-1.i686@system to lib-2-1.x86_64@new
  comes in place of several of its name: 1
    lib-2-1.x86_64@new of lib-1-1.i686@system, lib-1-1.x86_64@system
"""
TWICE_KEPT = """\
  it goes through: 0 upgraded, 0 new, 0 gone, 2 as they are
  stays, and is installed more than once: 2
    lib-1-1.i686@system
    lib-1-1.x86_64@system
"""
# what an installed package calls for, and what one that is upgraded does
CALLED_FOR = (
    "=Pkg: app 1 1 noarch\n=Pkg: tool 1 1 noarch\n",
    "=Pkg: app 1 1 noarch\n=Pkg: app-lang 1 1 noarch\n=Sup: app\n" "=Pkg: tool 2 1 noarch\n=Pkg: tool-lang 2 1 noarch\n=Sup: tool\n",
)
LIBSOLVS = pathlib.Path("/usr/bin/testsolv")
WRONG_JOBS = (
    ("frobnicate name vim", 'testsolv does not take the line "job frobnicate name vim": UnknownJob'),
    ("lock pkg", 'testsolv does not take the line "job lock pkg": BadWords'),
    ("lock name vim\nnextjob", "--job 'lock name vim\\nnextjob': it is more than one line"),
)


def run(program, *words):
    done = subprocess.run([sys.executable, TOOLS / "upgrade.py", "--program", program, *words], capture_output=True, text=True)
    return done.returncode, done.stdout, done.stderr


def come(program, script):
    """The texts of the packages that come."""
    lines = subprocess.run([program, "-r", script], capture_output=True, text=True).stdout.splitlines()
    return {line.split()[-1] for line in lines if line.split(" ")[0] in ("install", *CHANGES)}


def try_languages(program, folder):
    """What a machine calls for whatever is done stays out, as by libsolv, but where it is required."""
    old, new, script = folder / "old.repo", folder / "new.repo", folder / "languages.t"
    old.write_text(LANGUAGES[0])
    usual = {f"{name}.noarch@new" for name in ("app-2-1", "app-lang-2-1", "words-2-1", "both-1-1")}
    for requirement, wanted in (
        ("", usual),
        ("=Req: fonts >= 1\n", usual | {"fonts-1-1.noarch@new"}),
        ("=Rec: fonts\n", usual | {"fonts-1-1.noarch@new"}),
    ):
        new.write_text(LANGUAGES[1].format(requirement))
        status, told, errors = run(program, old, new, "--locale", "de_DE", "--script", script)
        same(
            f"languages, {requirement}",
            (status, told.splitlines()[1], errors),
            (0, f"  it goes through: 2 upgraded, {len(wanted) - 2} new, 0 gone, 1 as they are", ""),
        )
        same(f"what comes, {requirement}", come(program, script), wanted)
        same_by_libsolv(f"what comes without any lock, {requirement}", script, wanted, "job lock ")
    new.write_text(LANGUAGES[1].format(""))
    same("a set", run(program, new, new, "--locale", "de", "--set", "old")[1].splitlines()[0], "set 1, old: 2 packages")
    same("a set that asks for it", run(program, new, new, "--locale", "de", "--set", "old,fonts")[1].splitlines()[0], "set 1, old,fonts: 3 packages")


def same_by_libsolv(what, script, wanted, without=None):
    """libsolv's testsolv brings the same for the script, without the lines that begin so; lines are told where it is not there."""
    if not LIBSOLVS.is_file():
        return print(f"skipped: {what}: there is no program {LIBSOLVS}")
    plain = script.with_name("plain.t")
    plain.write_text("".join(f"{line}\n" for line in script.read_text().splitlines() if not without or not line.startswith(without)))
    same(f"{what}, by libsolv", come(LIBSOLVS, plain), wanted)


def try_as_libsolv(program, folder):
    """Where the tool writes more into the script, so that what comes is what libsolv brings by itself."""
    old, new, updates, script = (folder / name for name in ("old.repo", "new.repo", "updates.repo", "upgrade.t"))
    old.write_text(KERNELS[0])
    new.write_text(KERNELS[1])
    told = run(program, old, new, "--job", "multiversion name kernel", "--script", script)
    same("a kernel", told, (0, f"set 1, {old}: 3 packages\n{KERNELS_TOLD}", ""))
    same("a kernel, its job", "job install name kernel [forcebest]" in script.read_text(), True)
    same_by_libsolv("a kernel", script, {"kernel-5.3-1.x86_64@new", "app-2-1.noarch@new"}, "job install ")
    new.write_text("=Pkg: app 2 1 noarch\n")
    run(program, old, new, "--job", "multiversion name kernel", "--script", script)
    same("no kernel", "job install" in script.read_text(), False)

    old.write_text(OUTDATED[0])
    new.write_text(OUTDATED[1])
    updates.write_text(OUTDATED[2])
    same("an outdated provider", run(program, old, new, updates, "--script", script)[::2], (0, ""))
    wanted = {"app-2-1.noarch@new", "libpython2_6-2.6.0-1.noarch@updates"}
    same("what comes of two repositories", come(program, script), wanted)
    script.write_text(script.read_text().replace("repo updates 1 ", "repo updates 0 "))
    same_by_libsolv("an outdated provider without priorities", script, wanted)
    same("an outdated provider in a set", run(program, new, updates, "--beside", updates, "--set", "app", "--script", script)[::2], (0, ""))
    same("what is installed of two repositories", "#>=Pkg: libpython2_6 " in script.read_text(), True)

    old.write_text(TWICE[0])
    new.write_text(TWICE[1])
    same("of two architectures", run(program, old, new, "--script", script), (0, f"set 1, {old}: 2 packages\n{TWICE_TOLD}", ""))
    same_by_libsolv("of two architectures", script, {"lib-2-1.x86_64@new"})
    same(
        "of two architectures that stay",
        run(program, old, new, "--job", "multiversion provides lib"),
        (0, f"set 1, {old}: 2 packages\n{TWICE_KEPT}", ""),
    )

    old.write_text(CALLED_FOR[0])
    new.write_text(CALLED_FOR[1])
    usual = {"tool-2-1.noarch@new", "tool-lang-2-1.noarch@new"}
    for words, wanted in (([], usual | {"app-lang-1-1.noarch@new"}), (["--as-now"], usual)):
        run(program, old, new, *words, "--script", script)
        same(f"what is called for, {words}", come(program, script), wanted)
    same_by_libsolv("what is called for", script, usual, "job lock ")


def try_many(program, folder):
    """Source packages, and a way out of many elements."""
    old, new = folder / "many.repo", folder / "less.repo"
    old.write_text(MANY[0] + "=Pkg: lib 1 1 src\n=Req: compiler\n=Pkg: x 1 1 nosrc\n")
    new.write_text(MANY[1])
    status, told, errors = run(program, old, new, "--job", "install name other")
    same("source packages", (status, errors), (1, "left out: 1 packages of the architecture nosrc\nleft out: 1 packages of the architecture src\n"))
    same("how many are installed", told.splitlines()[0], f"set 1, {old}: 4 packages")
    erased = "".join(f"      erase user{number}-1-1.noarch@system\n" for number in range(3))
    same("a way out of many elements", erased in told and ":\n      erase" in told, True)
    old.write_text("=Pkg: lib 1 1 src\n")
    same(
        "nothing is installed",
        run(program, old, new)[::2],
        (2, "left out: 1 packages of the architecture src\n" f"{old}: no package of it is installed, so there is nothing to upgrade\n"),
    )


def try_faults(program, folder):
    """What is found before anything is asked."""
    for job, fault in WRONG_JOBS:
        same(f"a wrong job, {job}", run(program, OLD, NEW, "--set", "bash", "--job", job), (2, "", f"{fault}\n"))
    lost = folder / "nosuch" / "upgrade.t"
    same(
        "a script in no folder",
        run("nosuch", OLD, NEW, "--script", lost),
        (2, "", f"{lost}: it cannot be written, since its folder is not there, or may not be written\n"),
    )
    (folder / "empty.repo").write_text("")
    same(
        "an empty repository",
        run("nosuch", OLD, folder / "empty.repo"),
        (2, "", f"{folder}/empty.repo: it has no package: it is no repository in testtags format, or was cut to nothing\n"),
    )


def main():
    program = pathlib.Path(sys.argv[1]) if len(sys.argv) > 1 else TESTSOLV
    if not program.is_file():
        print(f"skipped: there is no program {program}")
        return
    with tempfile.TemporaryDirectory() as name:
        folder = pathlib.Path(name)
        comps, script = folder / "comps.xml", folder / "upgrade.t"
        comps.write_text(COMPS)
        status, told, errors = run(
            program, OLD, NEW, "--set", "nginx,/bin/sh", "--set", "@server", "--set", "charts", "--groups", comps, "--script", script
        )
        same("what is told of three sets", told, WEB + MAIL + CHARTS)
        same("status and errors of three sets", (status, errors), (1, "left out of @mail, no package has the name: nosuch\n"))
        again = subprocess.run([program, "-r", folder / "upgrade-3.t"], capture_output=True, text=True)
        same("the script of the third set", again.stdout.count("problem 1 info"), 4)
        status, told, errors = run(program, OLD, NEW, "--set", "nginx,/bin/sh", "--set", "charts,postfix")
        same("status and errors of two sets", (status, errors), (1, ""))
        same("docs/MAINTAINERS.md has what is told of two sets", WEB in told and told in PAGE, True)
        status, told, errors = run(program, OLD, NEW, "--set", "stunnel")
        same(
            "a set that cannot be installed",
            (status, told.splitlines()[:3], errors),
            (1, ["set 1, stunnel", "  it cannot be installed from the old release: 1 problem", "  problem 1:"], ""),
        )
        status, told, errors = run(program, OLD, NEW, "--set", "charts", "--job", "allowuninstall name charts")
        same(
            "a further job",
            (status, told.splitlines()[1:], errors),
            (0, ["  it goes through: 1 upgraded, 0 new, 1 gone, 0 as they are", "  goes: 1", "    charts-4.1-7.fc39.x86_64@system"], ""),
        )
        (folder / "updates.repo").write_text("=Pkg: bash 5.2.15 6.fc39 x86_64\n=Vnd: Fedora Project\n")
        status, told, errors = run(program, OLD, NEW, "--beside", folder / "updates.repo", "--set", "bash", "--script", script)
        same("an update of the old release", "#>=Pkg: bash 5.2.15 6.fc39 x86_64" in script.read_text(), True)
        status, told, errors = run(program, NEW, NEW)
        same(
            "all packages of the old release",
            (status, told, errors),
            (0, f"set 1, {NEW}: 6 packages\n  it goes through: 0 upgraded, 0 new, 0 gone, 6 as they are\n", ""),
        )
        try_languages(program, folder)
        try_as_libsolv(program, folder)
        try_many(program, folder)
        try_faults(program, folder)
        same(
            "no such group",
            run(program, OLD, NEW, "--set", "@nosuch")[::2],
            (2, "@nosuch: no group of this name; --groups names the file that has them\n"),
        )
        comps.write_text("<comps>\n<group></comps>\n")
        same("a broken file of groups", run(program, OLD, NEW, "--groups", comps)[::2], (2, f"{comps}:2: mismatched tag: line 2, column 9\n"))
    print("as it should be")


if __name__ == "__main__":
    main()
