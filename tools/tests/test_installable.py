#!/usr/bin/env python3
"""Tries installable.py on the small repositories of docs/maintainers/, and on one of its own making.

    tools/tests/test_installable.py [TESTSOLV PROOFCHECK]

Without the words it takes the programs where `rt run` builds them.
"""
import argparse
import contextlib
import io
import pathlib
import random
import subprocess
import sys
import tempfile

from places import COMPOSE, PAGE, TOOLS

import asking
import installable
import rounds
import testtags
from rounds import PROOFCHECK, TESTSOLV
from rpms_for_tests import same


TOLD = """\
3 of 11 packages cannot be installed

2 by this: nothing provides libssl.so.1.1()(64bit)
  stunnel-5.71-1.fc39.x86_64@compose, round 1
    nothing provides libssl.so.1.1()(64bit) needed by stunnel-5.71-1.fc39.x86_64@compose
  mail-tunnel-1.2-3.fc39.noarch@compose, round 2
    nothing provides libssl.so.1.1()(64bit) needed by stunnel-5.71-1.fc39.x86_64@compose
    package mail-tunnel-1.2-3.fc39.noarch@compose requires stunnel >= 5, but none of the providers can be installed

1 by this: package sendmail-8.17.2-2.fc39.x86_64@compose conflicts with postfix provided by postfix-2:3.8.1-2.fc39.x86_64@compose
  mail-tests-0.9-1.fc39.noarch@compose, round 3
    package mail-tests-0.9-1.fc39.noarch@compose requires sendmail & postfix >= 2:3.8, but none of the providers can be installed
3 proofs in compose.proof, checked against compose.proof.t
"""

# packages of another architecture are not asked for, and inferior ones are
OTHER = """\
=Pkg: tool 1 1 x86_64
=Pkg: tool 1 1 i686
=Req: libtool.so.2
=Pkg: lib 2 1 i686
=Prv: libtool.so.2
=Pkg: lib 2 1 x86_64
=Pkg: tool 1 1 ppc64le
=Req: nothing
=Pkg: late 1 1 noarch
=Req: stunnel
"""


MACHINE = "".join(
    f"=Pkg: {name} 1 1 noarch\n=Req: namespace:{what}\n"
    for name, what in (
        ("german", "language(de)"),
        ("english", "language(en)"),
        ("wlan", "modalias(pci:v0000104Cd*803[0-9]*)"),
        ("battery", "modalias(acpi:PNP0C0A%2C%20x:)"),
        ("usb", "modalias(usb:v1234*)"),
        ("xfs", "filesystem(xfs)"),
    )
)

# forty packages of two architectures each, more than are asked for one by one
TWO = "".join(
    f"=Pkg: lib{n} 1 1 {arch}\n=Prv: lib{n}.so({arch})\n" + (f"=Req: lib{n // 2}.so({arch})\n" if n else "")
    for n in range(40)
    for arch in ("x86_64", "i686")
)


def run(programs, *words, folder=None):
    command = [sys.executable, TOOLS / "installable.py", "--program", programs[0], "--checker", programs[1], *words]
    done = subprocess.run(command, capture_output=True, text=True, cwd=folder)
    return done.returncode, done.stdout, done.stderr


# a package over which something has to be learnt
HARD = """\
=Pkg: hard 1 1 noarch
=Req: a | b
=Req: c | d
=Pkg: a 1 1 noarch
=Con: c
=Con: d
=Pkg: b 1 1 noarch
=Con: c
=Con: d
=Pkg: c 1 1 noarch
=Pkg: d 1 1 noarch
"""


def try_budget(program, folder):
    """A round that spends the budget is left without an answer, and those behind it are asked for again."""
    (folder / "hard.repo").write_text(HARD)
    head = rounds.head([folder / "hard.repo"], ["hard"], "x86_64")
    asked = [f"job install name {name}\n" for name in ("hard", "a", "hard", "hard", "nosuch")]
    full, rounds.BUDGET = list(rounds.answers(program, folder, head, asked)), ("--budget", "0")
    none = list(rounds.answers(program, folder, head, asked))
    same("rounds within the budget", [bool(rounds.problems(answer)) for answer in full], [True, False, True, True, True])
    same("rounds that spend it", none, [None, full[1], None, None, full[4]])


def try_proofs(programs, folder):
    """Where all proofs of a run spend its budget together, and none by itself, runs of fewer give them."""
    (folder / "hard.repo").write_text(HARD.replace("hard", "hard0") + "".join(HARD.split("=Pkg: a")[0].replace("hard", f"hard{n}") for n in (1, 2)))
    head = rounds.head([folder / "hard.repo"], ["hard"], "x86_64")
    given = argparse.Namespace(proof=folder / "hard.proof", program=programs[0], checker=programs[1], processes=1)
    told, budget, all_of_them = io.StringIO(), rounds.BUDGET, [f"hard{n}-1-1.noarch@hard" for n in range(3)]
    with contextlib.redirect_stdout(told):
        for count in range(20):
            rounds.BUDGET = ("--budget", str(count))
            try:
                installable.prove(given, folder, head, all_of_them[:1])
                break
            except testtags.Fault as fault:
                last = str(fault)
        same("no budget for one proof", last, f"{given.proof}: the budget was spent over the proof of round 1")
        installable.prove(given, folder, head, all_of_them)
    rounds.BUDGET = budget
    same("three proofs with the budget of one", told.getvalue().splitlines()[-1], f"3 proofs in {given.proof}, checked against {given.proof}.t")


def drawn(draw, count):
    """A repository that is drawn: packages of one or two architectures and versions, and what they require and conflict with."""
    lines = []
    for number in range(count):
        for arch, version in draw.choice(([("noarch", 1)], [("x86_64", 1), ("i686", 1)], [("x86_64", 1), ("x86_64", 2)])):
            one, other = draw.randrange(count + 1), draw.randrange(count)
            lines += [f"=Pkg: p{number} {version} 1 {arch}", f"=Prv: c{draw.randrange(5)}"]
            lines += draw.choices(
                (
                    f"=Req: p{one}",
                    f"=Req: p{one} >= 2",
                    f"=Req: p{one} | p{other}",
                    f"=Req: p{one} & p{other}",
                    f"=Req: c{one} <IF> p{other}",
                    f"=Con: p{other} < 2",
                    f"=Obs: p{other} < 2",
                    "=Sug: c0",
                ),
                k=3,
            )
    return "\n".join(lines) + "\n"


def try_bulk(program, folder):
    """What is asked for in bulk is answered as it is one by one."""
    asking.TOGETHER, asking.GAIN = 7, 1
    failing = 0
    for seed in range(12):
        draw, path = random.Random(seed), folder / "drawn.repo"
        path.write_text(drawn(draw, draw.randrange(5, 25)))
        given = argparse.Namespace(repos=[path], only=[], arch="x86_64", program=program, processes=2)
        head, asked = rounds.head([path], ["drawn"], "x86_64"), installable.asked_for(given, ["drawn"])
        alone = zip(asked, rounds.answers(program, folder, head, asking.rounds_for(asked)))
        wanted = {text for text, answer in alone if answer}
        same(f"what cannot be installed of seed {seed}", set(asking.failing(given, folder, head, asked)[0]), wanted)
        failing += len(wanted)
    same("some cannot be installed", failing > 20, True)


def try_processes(program, folder):
    """The same lines for each number of processes, where shares are many."""
    asking.TOGETHER, asking.GAIN, asking.SHARE = 7, 1, 30
    path = folder / "drawn.repo"
    path.write_text(drawn(random.Random(3), 150))
    head = rounds.head([path], ["drawn"], "x86_64")
    found = []
    for processes in (1, 2, 40):
        given = argparse.Namespace(repos=[path], only=[], arch="x86_64", program=program, processes=processes)
        found.append(list(asking.failing(given, folder, head, installable.asked_for(given, ["drawn"]))[0].items()))
    same("many shares", len(found[0]) > 3 * asking.TOGETHER, True)
    for number, one in enumerate(found):
        same(f"the lines of the first number of processes and of another, {number}", one, found[0])


def try_machine(programs, folder):
    """What a machine has besides packages."""
    path, aliases = folder / "machine.repo", folder / "aliases"
    path.write_text(MACHINE)
    aliases.write_text("usb:v1D6Bp0002\npci:v0000104Cd00008039sv00\nacpi:PNP0C0A, x:\n")
    for words, wanted in (
        ([], ["german", "english", "wlan", "battery", "xfs"]),
        (["--locale", "de_AT.UTF-8"], ["wlan", "battery", "xfs"]),
        (["--modalias", aliases], ["german", "english", "xfs"]),
        (["--filesystem", "ext4", "xfs"], ["german", "english", "wlan", "battery"]),
    ):
        told = run(programs, path, *words)[1]
        same(
            f"what cannot be installed with {words}",
            sorted(line.split("-")[0].strip() for line in told.splitlines() if line.endswith("@machine") and not line.startswith("    ")),
            sorted([*wanted, "usb"]),
        )


def try_faults(programs, folder):
    """What is found before anything is asked: no program is there."""
    none, compose = ["nosuch", "nosuch"], [COMPOSE]
    for name, text, fault in (
        ("empty", "", "it has no package: it is no repository in testtags format, or was cut to nothing"),
        ("page", "<html>\n", "it has no package: it is no repository in testtags format, or was cut to nothing"),
    ):
        path = folder / f"{name}.repo"
        path.write_text(text)
        same(f"a file that is no repository, {name}", run(none, path), (2, "", f"{path}: {fault}\n"))
        same(f"the same beside another, {name}", run(none, *compose, "--beside", path), (2, "", f"{path}: {fault}\n"))
    path.write_text("# rpmmd_to_testtags.py /srv/os --with\n")
    same("a repository without packages", run(none, path), (2, "", f"there is no package to ask for: {path}\n"))
    lost = folder / "nosuch" / "proof"
    same(
        "proofs in no folder",
        run(none, *compose, "--proof", lost),
        (2, "", f"{lost}: it cannot be written, since its folder is not there, or may not be written\n"),
    )
    for number in ("0", "-1", "two"):
        status, told, errors = run(none, *compose, f"--jobs={number}")
        same(
            f"processes, {number}",
            (status, told, errors.splitlines()[-1].partition("error: ")[2]),
            (2, "", f"argument --jobs: {number} is no number of processes, which is 1 or more"),
        )
    path.write_text("=Pkg: tool 1 1 noarch\n=Req: none\n=Pkg: tool 1 1 noarch\n")
    same(
        "a package that stands twice",
        run(programs, path)[2],
        "it stands there more than once, and what is said may hold of one alone: tool-1-1.noarch@page\n",
    )


def main():
    programs = [pathlib.Path(word).resolve() for word in sys.argv[1:]] or [TESTSOLV, PROOFCHECK]
    for program in programs:
        if not program.is_file():
            print(f"skipped: there is no program {program}")
            return
    with tempfile.TemporaryDirectory() as name:
        folder = pathlib.Path(name)
        other = folder / "other.repo"
        status, told, errors = run(programs, COMPOSE, "--proof", "compose.proof", folder=folder)
        same("what cannot be installed", (status, told, errors), (1, TOLD, ""))
        same("docs/MAINTAINERS.md has it", TOLD in PAGE, True)
        checked = subprocess.run([programs[1], folder / "compose.proof.t", folder / "compose.proof"], capture_output=True, text=True)
        same("the proofs that are kept", (checked.returncode, checked.stdout.count(": yes\n")), (0, 3))
        status, told, errors = run(programs, COMPOSE, "--only", "nginx", "bash")
        same("packages by name", (status, told, errors), (0, "0 of 2 packages cannot be installed\n", ""))
        other.write_text(OTHER)
        status, told, errors = run(programs, other, "--beside", COMPOSE)
        same("status beside another", (status, errors), (1, "left out: 1 packages of the architecture ppc64le\n"))
        same(
            "a repository beside another",
            told.splitlines()[:3],
            ["1 of 5 packages cannot be installed", "", "1 by this: " + TOLD.splitlines()[2].split(": ", 1)[1]],
        )
        other.write_text(TWO)
        same("a package of two architectures", run(programs, other), (0, "0 of 80 packages cannot be installed\n", ""))
        other.write_text("=Pkg: tool 1 1\n")
        same("a bad line", run(programs, other)[::2], (2, f"{other}:1: a package has a name, a version, a release and an architecture\n"))
        other.write_text("=Pkg: tool 1 1 noarch\n=Req: a &\n")
        same("a bad dependency", run(programs, other)[::2], (2, f"testsolv: {other}:2: MissingOperand\n"))
        same("a name that is not there", run(programs, COMPOSE, "--only", "nosuch")[::2], (2, "nosuch: no repository has a package of this name\n"))
        try_machine(programs, folder)
        try_faults(programs, folder)
        try_bulk(programs[0], folder)
        try_processes(programs[0], folder)
        try_budget(programs[0], folder)
        try_proofs(programs, folder)
        same("no program", run(["nosuch", "nosuch"], COMPOSE)[0], 2)
    print("as it should be")


if __name__ == "__main__":
    main()
