#!/usr/bin/env python3
"""Makes a script small in which a line is still printed: for a bug report, or to see what the line depends on.

    gachuswi-tools shrink SCRIPT LINE [--round N] [--output FILE]

SCRIPT is a script of testsolv (docs/FORMATS.md), and LINE what `testsolv -r SCRIPT` prints, as "install git-2-1.x86_64@fedora";
of a line of a problem its text will do, whatever its numbers are: "nothing provides lib needed by app-1-1.noarch@fedora". Of the
rounds the first one that prints it is taken where none is named. Left out are jobs, repositories, packages, their lines, flags
and what the script says of the machine, many at a time first and then one by one, as long as LINE is printed. At the end none of
them can be left out alone. The script stands alone, goes to the output stream or into FILE, and how small it is is told on the
error stream. It need not be the smallest one that there is, and LINE may be printed in it for another reason.
"""
import collections
import pathlib
import sys
import tempfile

import rounds
import testtags
from dependencies import words_of
from scripts import Script

# what holds where no line sets a flag
FLAGS = {
    "allowdowngrade": False,
    "allownamechange": True,
    "allowarchchange": False,
    "allowvendorchange": False,
    "allowuninstall": False,
    "ignorerecommended": False,
    "noinfarchcheck": False,
}


def text_of(line):
    """What of a printed line has to be the same: of a problem its text alone."""
    match = rounds.PROBLEM.fullmatch(line)
    return match[4] if match else line


def fewest(parts, is_enough):
    """Leaves out parts, fewer and fewer at once, as long as the rest is enough; at the end none can be left out alone."""
    size = max(1, len(parts) // 2)
    while parts:
        at, before = 0, len(parts)
        while at < len(parts):
            rest = parts[:at] + parts[at + size :]
            if is_enough(rest):
                parts = rest
            else:
                at += size
        if size == 1 and len(parts) == before:
            break
        size = max(1, min(size // 2, len(parts) // 2)) if size > 1 else 1
    return parts


class Shrinking:
    """A script of one round in parts, and whether a line is still printed without some of them."""

    # in this order they are left out: without most lines most packages are needless, and what stands in front names what stands behind
    KINDS = ("jobs", "chosen", "repos", "lines", "packages", "machine", "flags", "result")

    def __init__(self, given, folder, script, round_lines):
        self.given, self.folder, self.wanted = given, folder, text_of(given.line)
        self.repos, self.packages, self.machine = list(script.repos.items()), [], script.machine
        # a part is a list of its own, so that two equal ones are two
        self.lines = []
        for number, package in enumerate(script.packages):
            self.packages.append((number, package.repo, package.text, package.heading))
            self.lines += [(number, line) for line in package.lines]
        self.flags = [word for word in round_lines[0].split()[1:] if FLAGS[word.removeprefix("!")] == word.startswith("!")]
        self.jobs = [line for line in round_lines if line.startswith("job ")]
        # (what was expected is not looked at)
        self.result = [line for line in round_lines if line.startswith("result ")]
        # the packages of jobs that choose one of several
        self.chosen = [(number, word) for number, job in enumerate(self.jobs) for word in job.split()[3:] if job.split()[2] == "oneof"]
        self.places = {number: job for number, job in enumerate(self.jobs)}
        self.jobs = list(self.places)
        self.tries, self.progress = 0, testtags.Progress("tries")

    def job_lines(self, parts):
        for number in parts["jobs"]:
            words = self.places[number].split()
            chosen = [word for place, word in parts["chosen"] if place == number]
            yield " ".join([*words[:3], *chosen]) if words[2:3] == ["oneof"] else self.places[number]

    def machine_lines(self, parts):
        """The lines on the machine, without packages that are gone."""
        there = {text for _, _, text, _ in parts["packages"]} | {"@SYSTEM"}
        for line in parts["machine"]:
            front, words = line.split()[:2], [word for word in line.split()[2:] if word in there]
            if line.startswith("namespace "):
                yield from [" ".join([*front, *words])] if words else []
            elif not line.startswith("disable ") or words:
                yield line

    def text(self, **changed):
        """The script, with other parts in place of some."""
        parts = {kind: changed.get(kind, getattr(self, kind)) for kind in self.KINDS}
        names = {name for name, _ in parts["repos"]}
        parts["packages"] = [package for package in parts["packages"] if package[1] in names]
        below, inside, lines = {}, {name: [] for name, _ in parts["repos"]}, []
        for number, line in parts["lines"]:
            below.setdefault(number, []).append(f"#>{line}")
        for number, repo, _, heading in parts["packages"]:
            inside[repo] += [f"#>{heading}", *below.get(number, [])]
        for name, line in parts["repos"]:
            lines += [line, *inside[name]] if inside[name] else [f"{' '.join(line.split()[:3])} empty"]
        lines += self.machine_lines(parts)
        lines += [f"solverflags {' '.join(parts['flags'])}"] if parts["flags"] else []
        return "".join(f"{line}\n" for line in [*lines, *self.job_lines(parts), *parts["result"]])

    def stands(self, **changed):
        """Whether the line is printed of the script with these other parts."""
        self.tries += 1
        self.progress.step()
        place = pathlib.Path(self.folder, "smaller.t")
        place.write_text(self.text(**changed), **testtags.UTF)
        printed, status = rounds.run(self.given.program, *rounds.BUDGET, "-r", place, statuses=(0, 1, 2, 5))
        return status in (0, 1) and any(text_of(line) == self.wanted for lines in rounds.rounds_of(printed) for line in lines)

    def size(self):
        return sum(len(getattr(self, kind)) for kind in self.KINDS)

    def begin_near(self, words):
        """Keeps the packages alone that have these names or texts, and those that they ask for, step by step, as many as it takes.

        Tells whether these, or at last all, print the line.
        """
        having, below, asked = collections.defaultdict(list), collections.defaultdict(list), collections.defaultdict(set)
        for number, _, text, heading in self.packages:
            having[heading.split()[1]].append(number)
            having[text].append(number)
        for number, line in self.lines:
            below[number].append((number, line))
            if line.startswith(("=Prv: ", "=Fls: ")):
                having[line[6:].split()[0]].append(number)
            elif not line.startswith("=Vnd: "):
                asked[number].update(words_of(line[6:]))
        names = {text: heading.split()[1] for _, _, text, heading in self.packages}
        # (lines of one kind stand together, since they are left out together first)
        there, more = set(), {number for word in words for number in having[word] + having[names.get(word)]}
        while more - there:
            there |= more
            near = [package for package in self.packages if package[0] in there]
            lines = sorted((line for number in there for line in below[number]), key=lambda one: one[1][:5])
            if self.stands(packages=near, lines=lines):
                self.packages, self.lines = near, lines
                return True
            more = {number for one in there for word in asked[one] for number in having[word]}
        return self.stands()

    def shrink(self):
        before = None
        while before != self.size():
            before = self.size()
            for kind in self.KINDS:
                setattr(self, kind, fewest(getattr(self, kind), lambda some: self.stands(**{kind: some})))
                self.forget()
        self.progress.end()

    def forget(self):
        """Leaves out what belongs to parts that are gone."""
        names = {name for name, _ in self.repos}
        self.packages = [package for package in self.packages if package[1] in names]
        numbers = {number for number, *_ in self.packages}
        self.lines = [(number, line) for number, line in self.lines if number in numbers]
        self.chosen = [(number, word) for number, word in self.chosen if number in self.jobs]


def round_with(given, script):
    """The lines of the round that is meant, the first that prints the line where none is named, and the words of what it prints with it."""
    printed = rounds.rounds_of(rounds.run(given.program, *rounds.BUDGET, "-r", given.script, statuses=(0, 1))[0])
    found = [number for number, lines in enumerate(printed, 1) if text_of(given.line) in map(text_of, lines)]
    if given.round and not 0 < given.round <= len(script.rounds):
        raise testtags.Fault(f"{given.script}: it has no round {given.round}")
    if not found or given.round and given.round not in found:
        where = f"round {given.round} does not print" if given.round else "no round prints"
        raise testtags.Fault(f"{given.script}: {where} {given.line}")
    number = given.round or found[0]
    together = [given.line]
    for problem in rounds.problems(printed[number - 1]).values():
        lines = problem.info + [line for way in problem.solutions.values() for line in way]
        together += lines if text_of(given.line) in lines else []
    return script.rounds[number - 1], [word.rstrip(",") for line in together + script.rounds[number - 1] for word in line.split()]


def main(given):
    testtags.expect_writable(given.output)
    script = Script(rounds.run(given.program, "--write", given.script)[0])
    with tempfile.TemporaryDirectory() as folder:
        lines, words = round_with(given, script)
        smaller = Shrinking(given, folder, script, lines)
        counts = f"of {len(smaller.packages):,} packages and {len(smaller.lines):,} lines of them"
        if not smaller.begin_near(words):
            raise testtags.Fault(f"{given.script}: the round by itself does not print {given.line}")
        smaller.shrink()
    text = smaller.text()
    given.output.write_text(text, **testtags.UTF) if given.output else print(text, end="")
    print(f"{len(smaller.packages):,} packages and {len(smaller.lines):,} lines {counts}, {smaller.tries:,} tries", file=sys.stderr)
    return 0


if __name__ == "__main__":
    arguments = testtags.arguments(__doc__)
    arguments.add_argument("script", metavar="SCRIPT", type=pathlib.Path)
    arguments.add_argument("line", metavar="LINE")
    arguments.add_argument("--round", metavar="N", type=int)
    arguments.add_argument("--output", metavar="FILE", type=pathlib.Path)
    arguments.add_argument("--program", type=pathlib.Path, default=rounds.TESTSOLV, help="testsolv, where it is not where it was built")
    testtags.run(main, arguments)
