#!/usr/bin/env python3
"""Tells whether the upgrade from one release to the next goes through, and what it changes.

    gachuswi-tools upgrade OLD NEW .. [--beside OTHER ..] [--set WORD,WORD,..] .. [--groups COMPS] [--job JOB] .. [--script FILE]
                     [--html FOLDER] [--since FOLDER] [--title TEXT] [--date TEXT]
                     [--as-now] [--locale LOCALE ..] [--modalias FILE] [--filesystem NAME ..]

OLD, each OTHER, which belongs to the old release too, and each NEW are repositories in testtags format, as rpmmd_to_testtags.py
makes them. Where there are several of one release, a later one is newer and has a higher priority, so the updates stand behind
the release. Each --set is an installation: what testsolv installs from the old release for its words, which are names of
packages, or else what some package provides, or groups as @core of COMPS, a file as repodata has it (their mandatory and
default packages, or the groups of an environment). Without a set all packages of the old release are what is installed, as
rpmdb_to_testtags.py tells it of a machine; those of another architecture, as source packages, are left out, which is told on
the error stream. So is told where a repository may lack files, since the converter did not know of another one (--with).

Each JOB is a further job of the upgrade, as "lock name vim" or "allowuninstall all packages". For "multiversion name kernel"
the newest kernel of the NEWs is asked for too, where one is installed, since no upgrade brings it: the old ones stay beside it.
With --locale, --modalias and --filesystem what a machine has besides packages may call for some. What it would call for
whatever is done, since nothing of it changes, is kept out where there is an answer without it. With --as-now so is all that the
packages which stay call for (=Sup:), as libsolv does.

For each set testsolv is asked for a distribution upgrade to the packages of NEW, and it is told what goes, what another package
obsoletes, what goes back to a lower version, what changes its architecture or vendor, what comes beside another version, and what
stays though no NEW has it, or since it is installed twice; or the problems with the ways out of each. With --script the script
is written as one text, for `testsolv --proof` and picture.py; from the second set on its number stands in the name too, as
upgrade-2.t.

With --html the same is written as pages too, a page for each set. An earlier run's FOLDER is replaced. With --since the pages tell
which sets no longer go through and which do again since the run that wrote that FOLDER, and which change of the repositories did it.
"""
import collections
import pathlib
import sys
import tempfile
import xml.etree.ElementTree

import machine
import pages
import rounds
import testtags
import upgrade_pages

SYSTEM = "system"
CHANGES = ("upgrade", "downgrade", "change", "reinstall")


def groups_of(path):
    """The names of each group's packages, and of each environment's groups as @GROUP."""
    found = collections.defaultdict(list)
    try:
        with testtags.opened(path) as stream:
            for _, element in xml.etree.ElementTree.iterparse(stream):
                if element.tag == "group":
                    packages = element.iterfind("packagelist/packagereq")
                    found[element.findtext("id")] = [one.text for one in packages if one.get("type") in ("mandatory", "default", None)]
                elif element.tag == "environment":
                    found[element.findtext("id")] = [f"@{group.text}" for group in element.iterfind("grouplist/groupid")]
    except xml.etree.ElementTree.ParseError as error:
        raise testtags.Fault(f"{path}:{error.position[0]}: {error.msg}")
    return found


def jobs_for(words, groups, names):
    """The install jobs of a set."""
    jobs = []
    for word in words:
        if not word.startswith("@"):
            jobs.append(f"job install {'name' if word in names else 'provides'} {word}\n")
        elif word[1:] not in groups:
            raise testtags.Fault(f"{word}: no group of this name; --groups names the file that has them")
        else:
            members = groups[word[1:]]
            there = [member for member in members if member.startswith("@") or member in names]
            jobs += jobs_for(there, {**groups, word[1:]: []}, names)
            missing = [member for member in members if not member.startswith("@") and member not in names]
            if missing:
                print(f"left out of {word}, no package has the name: {' '.join(missing)}", file=sys.stderr)
    return jobs


def answer_of(given, folder, head, jobs):
    answer = next(rounds.answers(given.program, folder, head, [jobs]))
    if answer is None:
        raise testtags.Fault("the budget of testsolv was spent")
    return answer


def locking(names):
    return "".join(f"job lock name {name}\n" for name in sorted(names))


def in_the_way(answer):
    """The names of locks that the ways out of an answer's problems give up."""
    lines = [line for problem in rounds.problems(answer).values() for way in problem.solutions.values() for line in way]
    return {line.removeprefix("deljob lock name ") for line in lines if line.startswith("deljob lock name ")}


def answer_without_more(given, folder, repositories, head, jobs, installed=()):
    """The answer and its jobs, which lock what would be called for whatever is done, but for what is needed all the same."""
    answer, locked, needed = answer_of(given, folder, head + given.namespaces, jobs), set(), {package.name for package, _ in installed}
    while (given.namespaces or given.as_now and installed) and not rounds.problems(answer):
        words = {word for line in answer for word in line.split()[1:]}
        stays = [one for one in installed if rounds.package_text(one[0], SYSTEM) not in words]
        comes = [one for name, path in repositories.items() for one in testtags.packages(path) if rounds.package_text(one[0], name) in words]
        more = machine.called_for_anyway(given, folder, given.namespaces, stays, comes) - locked - needed
        if not more:
            break
        other = answer_of(given, folder, head + given.namespaces, jobs + locking(locked | more))
        if rounds.problems(other):
            needed |= more & in_the_way(other) or more
        else:
            answer, locked = other, locked | more
    return answer, jobs + locking(locked)


class Outcome:
    """What became of a set: its problems, with who meets what of them where pages want it, or its upgrade."""

    def __init__(self, words):
        self.words, self.installed, self.what, self.problems, self.upgrade = words, [], "it goes through", {}, None

    def fail(self, given, folder, head, what, answer):
        """Notes the problems of an answer, and tells of them."""
        self.problems = rounds.problems(answer)
        self.what = f"{what}: {len(self.problems)} problem{'s' if len(self.problems) > 1 else ''}"
        if given.html:
            self.names, self.met = pages.meeting(given, folder, head + given.namespaces, self.problems.values())

    def tell(self, number):
        """Prints what became of the set of this number."""
        print(f"set {number}, {self.words}" + (f": {len(self.installed)} packages" if self.installed else ""))
        if self.upgrade:
            return self.upgrade.tell()
        print(f"  {self.what}")
        for place, problem in self.problems.items():
            print(f"  problem {place}:" + "".join(f"\n    {line}" for line in problem.info))
            for way, lines in problem.solutions.items():
                print(f"    way out {way}:" + (f" {', '.join(lines)}" if len(lines) < 3 else "".join(f"\n      {line}" for line in lines)))


class Upgrade:
    """An upgrade that goes through: its changes by their kind, and what stays."""

    def __init__(self, answer, installed, new, multiversion=()):
        self.lines, self.installed, self.new, self.multiversion = answer, installed, new, multiversion
        self.packages, self.told, self.in_place_of = collections.defaultdict(set), collections.defaultdict(list), collections.defaultdict(list)
        for line in answer:
            kind, *packages = line.split()
            self.packages[kind].add(packages[0])
            self.change(kind, *packages)
        for text, olds in self.in_place_of.items():
            if len(olds) > 1:
                self.told["comes in place of several of its name"].append(f"{text} of {', '.join(olds)}")
        same, names = {package[:3] for package in new.values()}, {package.name for package in new.values()}
        times = collections.Counter(package.name for package in installed.values())
        self.stays = installed.keys() - set().union(*self.packages.values())
        for text in sorted(self.stays):
            name = installed[text].name
            is_twice = times[name] > 1 and name in names and name not in multiversion
            if installed[text][:3] not in same:
                self.told["stays, and is installed more than once" if is_twice else "stays, and no new repository has it"].append(text)

    def change(self, kind, package, other=None):
        if kind == "erase":
            self.told["goes"].append(package)
        elif kind == "obsolete":
            self.told["goes, since another package obsoletes it"].append(f"{package} by {other}")
        elif kind == "install" and self.new[package].name in self.multiversion:
            self.told["comes beside another version"].append(package)
        elif kind in CHANGES:
            self.in_place_of[other].append(package)
            old, new = self.installed[package], self.new[other]
            if kind == "downgrade":
                self.told["goes back to a lower version"].append(f"{package} to {other}")
            if old.arch != new.arch:
                self.told["changes its architecture"].append(f"{package} to {other}")
            if old.vendor != new.vendor:
                self.told["changes its vendor"].append(f"{package} ({old.vendor or 'none'}) to {other} ({new.vendor or 'none'})")

    def counts(self):
        """How many packages are upgraded, new, gone and as they are."""
        gone = self.packages["erase"] | self.packages["obsolete"]
        return [len(self.packages["upgrade"]), len(self.packages["install"]), len(gone), len(self.stays)]

    def tell(self):
        upgraded, new, gone, stay = self.counts()
        print(f"  it goes through: {upgraded} upgraded, {new} new, {gone} gone, {stay} as they are")
        for what, lines in sorted(self.told.items()):
            print(f"  {what}: {len(lines)}" + "".join(f"\n    {line}" for line in lines))


def write_script(given, folder, number, head, jobs):
    """Writes the script of a set as one text, where that is wanted."""
    if given.script:
        place = given.script if number == 1 else given.script.with_stem(f"{given.script.stem}-{number}")
        with rounds.script(folder, head + given.namespaces, [jobs]) as name:
            place.write_text(rounds.run(given.program, "--write", name)[0], **testtags.UTF)


def of_several_versions(given, installed, new):
    """The selections of the jobs for names of which several versions may be there, where one is installed and a NEW has another."""
    names = {package.name for package, _ in installed} & {package.name for package in new.values()}
    jobs = [job.split(None, 2) for job in given.jobs]
    return [words[2] for words in jobs if words[:2] == ["multiversion", "name"] and words[2].split()[0] in names]


def upgrade(given, folder, number, outcome, news, new):
    """Asks for the upgrade of what is installed to the new packages, and notes whether it goes through."""
    installed = outcome.installed
    head = rounds.head([folder / f"{SYSTEM}.repo", *news.values()], [SYSTEM, *news], given.arch, SYSTEM, [0, *range(len(news))])
    several = of_several_versions(given, installed, new)
    newest = [f"install name {selection} [forcebest]" for selection in several]
    jobs = "".join(f"job {job}\n" for job in ["distupgrade all packages", *given.jobs, *newest])
    write_script(given, folder, number, head, jobs)
    answer, asked = answer_without_more(given, folder, news, head, jobs, installed)
    if asked != jobs:
        write_script(given, folder, number, head, asked)
    if rounds.problems(answer):
        return outcome.fail(given, folder, head, "it does not go through", answer)
    texts = {rounds.package_text(package, SYSTEM): package for package, _ in installed}
    outcome.upgrade = Upgrade(answer, texts, new, {one.split()[0] for one in several})


def install(given, folder, outcome, words, groups, names):
    """Notes which packages are installed in a set, with their lines, and writes them as a repository; or why it cannot be."""
    olds, chosen = dict(zip(rounds.repo_names([given.old, *given.beside]), [given.old, *given.beside])), None
    if words is not None:
        head = rounds.head(olds.values(), olds, given.arch, priorities=range(len(olds)))
        answer, _ = answer_without_more(given, folder, olds, head, "".join(jobs_for(words, groups, names)))
        if rounds.problems(answer):
            return outcome.fail(given, folder, head, "it cannot be installed from the old release", answer)
        chosen = {line.removeprefix("install ") for line in answer}
    found = [
        (package, lines)
        for name, path in olds.items()
        for package, lines in testtags.packages(path)
        if chosen is None or rounds.package_text(package, name) in chosen
    ]
    outcome.installed = [(package, lines) for package, lines in found if package.arch in rounds.ALLOWED[given.arch]]
    rounds.tell_left_out(package for package, _ in found if package.arch not in rounds.ALLOWED[given.arch])
    if not outcome.installed:
        raise testtags.Fault(f"{given.old}: no package of it is installed, so there is nothing to upgrade")
    with open(folder / f"{SYSTEM}.repo", "w", **testtags.UTF) as repo:
        repo.writelines(f"{line}\n" for _, lines in outcome.installed for line in lines)


def try_jobs(given, folder):
    """Fails where testsolv does not take a further job; packages, which are not there yet, may be named."""
    for job in given.jobs:
        if "\n" in job:
            raise testtags.Fault(f"--job {job!r}: it is more than one line")
        try:
            with rounds.script(folder, [f"repo {SYSTEM} 0 empty", f"system {given.arch} rpm {SYSTEM}"], [f"job {job}\n"]) as name:
                rounds.run(given.program, "--write", name)
        except testtags.Fault as fault:
            if not str(fault).endswith(": UnknownPackage"):
                raise


def main(given):
    testtags.expect_writable(given.script)
    earlier = pages.read_state(given, "upgrade")
    groups = groups_of(given.groups) if given.groups else {}
    paths = [given.old, *given.beside, *given.new]
    testtags.expect_packages(paths)
    given.namespaces = machine.namespaces(given, paths)
    names = {package.name for path in [given.old, *given.beside] for package, _ in testtags.packages(path)}
    news = dict(zip(rounds.repo_names([pathlib.Path(SYSTEM), *given.new])[1:], given.new))
    testtags.tell_made_without(paths)
    new = {rounds.package_text(package, name): package for name, path in news.items() for package, _ in testtags.packages(path)}
    outcomes = []
    with tempfile.TemporaryDirectory() as name:
        folder = pathlib.Path(name)
        try_jobs(given, folder)
        for number, words in enumerate(given.sets or [None], 1):
            outcome = Outcome(words or str(given.old))
            outcomes.append(outcome)
            install(given, folder, outcome, words.split(",") if words else None, groups, names)
            if not outcome.problems:
                upgrade(given, folder, number, outcome, news, new)
            outcome.tell(number)
    if given.html:
        upgrade_pages.write(given, outcomes, news, earlier)
        print(f"pages in {given.html / 'index.html'}")
    return 0 if all(outcome.upgrade for outcome in outcomes) else 1


if __name__ == "__main__":
    arguments = testtags.arguments(__doc__, "an upgrade does not go through, or a set cannot be installed")
    arguments.add_argument("old", metavar="OLD", type=pathlib.Path)
    arguments.add_argument("new", metavar="NEW", nargs="+", type=pathlib.Path)
    arguments.add_argument("--beside", metavar="OTHER", nargs="+", type=pathlib.Path, default=[])
    arguments.add_argument("--set", dest="sets", metavar="WORD,..", action="append")
    arguments.add_argument("--groups", metavar="COMPS", type=pathlib.Path)
    arguments.add_argument("--job", dest="jobs", metavar="JOB", action="append", default=[])
    arguments.add_argument("--as-now", action="store_true", help="what the packages that stay call for, and is not there, stays out")
    arguments.add_argument("--arch", choices=rounds.ARCHITECTURES, default="x86_64")
    arguments.add_argument("--script", metavar="FILE", type=pathlib.Path)
    arguments.add_argument("--program", type=pathlib.Path, default=rounds.TESTSOLV, help="testsolv, where it is not where it was built")
    pages.add_options(arguments)
    machine.add_options(arguments)
    testtags.run(main, arguments)
