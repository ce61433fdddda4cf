#!/usr/bin/env python3
"""Tells which packages of repositories cannot be installed, and why.

    gachuswi-tools installable REPO .. [--beside OTHER ..] [--only NAME ..] [--arch ARCH] [--proof FILE] [--jobs N]
                         [--html FOLDER] [--since FOLDER] [--title TEXT] [--date TEXT]
                         [--locale LOCALE ..] [--modalias FILE] [--filesystem NAME ..]

Each REPO is a repository in testtags format, as rpmmd_to_testtags.py makes them. A package can be installed where some set of
packages of all these and of the OTHERs has it and meets the rules, with nothing installed before; those of the OTHERs are not
asked for themselves. With --only it is asked for the packages of these names alone. Packages of another architecture are left
out, and told on the error stream; one that is inferior to another of the name may come. So is told where a repository may lack
files, since the converter did not know of another one (--with).

The program testsolv runs in N processes at a time, and without --jobs in as many as there are processors; what is printed is
the same for each N. At first made packages are installed that recommend thousands of packages: what comes can be installed. The
rest is asked for together, many in one round, and of whom that does not tell alone. Those that cannot be installed are told
with the lines of their problem, grouped by the cause that most of them share. With --proof the proof of each problem is written
to FILE, and the script that it is of, with a round for each, to FILE.t, which stands alone; `proofcheck FILE.t FILE` has said
yes to all.

With --html the same is written as pages too, with a page for each package that cannot be installed; the proofs are copied into
the FOLDER where they are asked for. An earlier run's FOLDER is replaced. With --since the pages tell what is newly broken and what
is mended since the run that wrote that FOLDER, which may be the same, and which change of the repositories did it.
"""
import argparse
import os
import pathlib
import re
import sys
import tempfile

import asking
import causes
import installable_pages
import machine
import pages
import rounds
import testtags

# so many proofs has one run of testsolv at most
PROOFS = 500


def asked_for(given, names):
    """The texts of the packages that are asked for, each with its package, in their order."""
    known, twice = {}, []
    for path, repo in zip(given.repos, names):
        for package, _ in testtags.packages(path):
            text = rounds.package_text(package, repo)
            twice += [text] if text in known else []
            known.setdefault(text, package)
    for text in sorted(set(twice)):
        print(f"it stands there more than once, and what is said may hold of one alone: {text}", file=sys.stderr)
    if given.only:
        for name in set(given.only) - {package.name for package in known.values()}:
            raise testtags.Fault(f"{name}: no repository has a package of this name")
        known = {text: package for text, package in known.items() if package.name in given.only}
    allowed = rounds.ALLOWED[given.arch]
    rounds.tell_left_out(package for package in known.values() if package.arch not in allowed)
    asked = {text: package for text, package in known.items() if package.arch in allowed}
    if not asked:
        raise testtags.Fault(f"there is no package to ask for: {', '.join(map(str, given.repos))}")
    return asked


def prove(given, folder, head, failing):
    """Writes the proofs of what fails, and the script that they are of, and has them checked."""
    asked = asking.rounds_for(failing)
    script = pathlib.Path(f"{given.proof}.t")
    with rounds.script(folder, head, asked) as name:
        script.write_text(rounds.run(given.program, "--write", name)[0], **testtags.UTF)

    def proofs(share, place):
        with rounds.script(folder, head, share) as name:
            text, status = rounds.run(given.program, *rounds.BUDGET, "--proof", name, statuses=(0, 5))
        if status == 5:
            # (the budget is for all rounds of one run)
            half = len(share) // 2
            if not half:
                raise testtags.Fault(f"{given.proof}: the budget was spent over the proof of round {place + 1}")
            return proofs(share[:half], place) + proofs(share[half:], place + half)
        moved = lambda match: f"problem {int(match[1]) + place}"
        return re.sub(r"^problem (\d+)", moved, text.removeprefix("proof 1\n"), flags=re.MULTILINE)

    # (each run reads the repositories again)
    size = max(1, min(PROOFS, -(-len(asked) // given.processes)))
    progress = testtags.Progress(f"of {len(asked):,} proofs")
    given.proof.write_text("proof 1\n" + "".join(rounds.in_shares(proofs, asked, size, given.processes, progress)))
    checked = rounds.run(given.checker, script, given.proof)[0].splitlines()
    proved = {line.split()[1] for line in checked if line.endswith(": yes")}
    if len(proved) != len(failing) or not all(line.endswith(": yes") for line in checked):
        raise testtags.Fault(f"{given.proof}: {given.checker} does not say yes to a proof of each package")
    print(f"{len(checked)} proofs in {given.proof}, checked against {script}")


def number_of_processes(text):
    if not text.isdecimal() or int(text) == 0:
        raise argparse.ArgumentTypeError(f"{text} is no number of processes, which is 1 or more")
    return int(text)


def main(given):
    for path in [given.proof, pathlib.Path(f"{given.proof}.t")] if given.proof else []:
        testtags.expect_writable(path)
    earlier = pages.read_state(given, "installable")
    paths = given.repos + given.beside
    names = rounds.repo_names(paths)
    testtags.expect_packages(paths)
    head = rounds.head(paths, names, given.arch) + machine.namespaces(given, paths)
    asked = asked_for(given, names)
    testtags.tell_made_without(paths)
    with tempfile.TemporaryDirectory() as folder:
        failing, spent = asking.failing(given, folder, head, asked)
        print(f"{len(failing)} of {len(asked)} packages cannot be installed")
        numbers = {text: f", round {n}" if given.proof else "" for n, text in enumerate(failing, 1)}
        for cause, group in causes.groups(failing):
            print(f"\n{len(group)} by this: {cause}")
            for text, lines in group.items():
                print(f"  {text}{numbers[text]}")
                print("".join(f"    {line}\n" for line in lines if line != cause), end="")
        for text in spent:
            print(f"\nnot known, the budget was spent: {text}")
        if given.proof and failing:
            prove(given, folder, head, failing)
        if given.html:
            found = installable_pages.Found(given, folder, head, paths, names, asked, failing, spent)
            installable_pages.write(given, found, earlier)
            print(f"pages in {given.html / 'index.html'}")
    return 1 if failing or spent else 0


if __name__ == "__main__":
    arguments = testtags.arguments(__doc__, "a package cannot be installed, or the budget was spent over one")
    arguments.add_argument("repos", metavar="REPO", nargs="+", type=pathlib.Path)
    arguments.add_argument("--beside", metavar="OTHER", nargs="+", type=pathlib.Path, default=[])
    arguments.add_argument("--only", metavar="NAME", nargs="+", default=[])
    arguments.add_argument("--arch", choices=rounds.ARCHITECTURES, default="x86_64")
    arguments.add_argument("--proof", metavar="FILE", type=pathlib.Path)
    arguments.add_argument("--program", type=pathlib.Path, default=rounds.TESTSOLV, help="testsolv, where it is not where it was built")
    arguments.add_argument("--checker", type=pathlib.Path, default=rounds.PROOFCHECK, help="proofcheck")
    arguments.add_argument(
        "--jobs", dest="processes", metavar="N", type=number_of_processes, default=len(os.sched_getaffinity(0)), help="so many processes at a time"
    )
    pages.add_options(arguments)
    machine.add_options(arguments)
    testtags.run(main, arguments)
