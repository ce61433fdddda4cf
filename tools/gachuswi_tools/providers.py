"""Which packages of a script meet what is asked of them, as testsolv itself takes it."""
import collections
import pathlib

import rounds
from scripts import before_rounds, packages_of
from testtags import UTF

# so many choices are asked for in one script
TOGETHER = 50


def provides_of(program, script, wanted, names):
    """What those packages of a script provide whose texts are wanted, or that provide one of the names."""
    found = {}
    for package in packages_of(before_rounds(rounds.run(program, "--write", script)[0])):
        _, name, version, release, _ = package.heading.split()
        provided = [f"{name} = {version}" + (f"-{release}" if release != "-" else "")]
        provided += [line[6:] for line in package.lines if line.startswith(("=Prv: ", "=Fls: "))]
        if package.text in wanted or any(one.split()[0] in names for one in provided):
            found.setdefault(package.text, provided)
    return found


def went(program, folder, packages, choices):
    """The numbers of the packages that go when each of the choices is erased, from a script in which these alone are installed.

    Each package stands there twice: with what it provides of the choices' names, and, to be selected by name, with its own alone.
    """
    repo, lines = pathlib.Path(folder, "meeting.repo"), []
    names = {one.split()[1] for one in choices}
    for number, provided in packages.items():
        lines += [f"=Pkg: provides-{number} 1 - noarch"] + [f"=Prv: {one}" for one in provided if one.split()[0] in names]
        lines += [f"=Pkg: name-{number} 1 - noarch", f"=Prv: {provided[0]}"]
    repo.write_text("\n".join(lines) + "\n", **UTF)
    head = rounds.head([repo], ["system"], "x86_64", "system")
    answers = rounds.answers(program, folder, head, [f"job erase provides {one.split(' ', 1)[1]}\n" for one in choices])
    for one, answer in zip(choices, answers):
        gone = [line.split()[1].rsplit("-", 1)[0].split("-") for line in answer if line.startswith("erase ")]
        yield sorted(int(number) for kind, number in gone if kind == one.split()[0])


def meeting(program, folder, script, texts, choices):
    """The names of packages of the script, and those that meet each of the choices, in the order of the script.

    A choice is what a job may select, as `name lib >= 2` or `provides lib.so`. Looked at are the packages whose texts are given
    and those that have a name of a choice. What a round costs depends on all packages of its script, so there is a script for
    some choices at a time.
    """
    single = sorted(one for one in choices if one.split()[0] in ("name", "provides"))
    packages = provides_of(program, script, texts, {one.split()[1] for one in single})
    order, having, met = list(packages), collections.defaultdict(list), {}
    for number, provided in enumerate(packages.values()):
        for name in {one.split()[0] for one in provided}:
            having[name].append(number)
    for at in range(0, len(single), TOGETHER):
        some = single[at : at + TOGETHER]
        numbers = sorted({number for one in some for number in having[one.split()[1]]})
        looked_at = {number: packages[order[number]] for number in numbers}
        for one, gone in zip(some, went(program, folder, looked_at, some) if looked_at else [()] * len(some)):
            met[one] = [order[number] for number in gone]
    for one in choices - met.keys():
        met[one] = [word for word in one.split()[1:] if word in packages]
    return {text: provided[0].split()[0] for text, provided in packages.items()}, met
