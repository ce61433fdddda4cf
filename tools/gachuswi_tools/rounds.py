"""Runs of testsolv on scripts of several rounds (docs/FORMATS.md), for the tools that ask it."""
import collections
import concurrent.futures
import contextlib
import itertools
import pathlib
import re
import shutil
import subprocess
import sys
import tempfile

from testtags import UTF, Fault

CRATES = pathlib.Path(__file__).resolve().parents[2] / "crates"
# the architectures that each one allows, beside noarch
ARCHITECTURES = {"x86_64": ("x86_64", "i686", "i586", "i486", "i386"), "i686": ("i686", "i586", "i486", "i386"), "aarch64": ("aarch64",)}
ALLOWED = {arch: {*others, "noarch"} for arch, others in ARCHITECTURES.items()}
# the greatest budget, in learnt clauses for all rounds of one run
BUDGET = ("--budget", "1000000")
# so many rounds has one run at most
MOST = 250
PROBLEM = re.compile(r"problem (\d+) (info|solution (\d+)) (.*)")


def built_or_installed(name):
    """The program where `rt run` builds it, or else the one that was installed."""
    built = CRATES / name / "out" / name
    return built if built.exists() else pathlib.Path(shutil.which(f"gachuswi-{name}") or built)


TESTSOLV, PROOFCHECK = map(built_or_installed, ("testsolv", "proofcheck"))


class Problem:
    """What clashes, and the ways out: lists of lines."""

    def __init__(self):
        self.info, self.solutions = [], collections.defaultdict(list)


def run(program, *words, statuses=(0, 1)):
    """What the program prints, and its status, which is one of these."""
    try:
        done = subprocess.run([program, *words], capture_output=True, **UTF)
    except FileNotFoundError:
        raise Fault(f"{program}: there is no such program; README.md tells how it is built, and --program names another one")
    if done.returncode not in statuses:
        raise Fault(done.stderr.strip() or f"{program}: it ended with status {done.returncode}, and the words {' '.join(map(str, words))}")
    return done.stdout, done.returncode


def package_text(package, repo):
    return f"{package.name}-{package.evr}.{package.arch}@{repo}"


def tell_left_out(packages):
    """Tells of packages of architectures that are not asked for."""
    for arch, count in sorted(collections.Counter(package.arch for package in packages).items()):
        print(f"left out: {count} packages of the architecture {arch}", file=sys.stderr)


def repo_names(paths):
    """A name for each repository: that of its file, which no other one has, and which is one word."""
    names = []
    for path in paths:
        stem = re.sub(r"\s", "_", path.name.removesuffix(".repo")) or "repository"
        names.append(next(name for n in range(1, len(paths) + 2) if (name := stem if n == 1 else f"{stem}-{n}") not in names))
    return names


def head(paths, names, arch, installed=None, priorities=()):
    """The lines of a script that come before its rounds. The first repositories have these priorities, and the others 0."""
    for path in paths:
        if len(str(path.resolve()).split()) != 1 or path.suffix in (".gz", ".bz2", ".xz", ".zst", ".lzma"):
            raise Fault(f"{path}: testsolv reads no file that is packed, or has a blank in its name or that of its folder")
    files = itertools.zip_longest(paths, names, priorities, fillvalue=0)
    lines = [f"repo {name} {priority} testtags {path.resolve()}" for path, name, priority in files]
    return lines + [f"system {arch} rpm" + (f" {installed}" if installed else "")]


def rounds_of(text):
    """The lines of each round in what was printed, without the sign of those that were not expected."""
    rounds = [[]]
    for line in text.split("\n"):
        if line == "nextjob":
            rounds.append([])
        elif line:
            rounds[-1].append(line.removeprefix("+"))
    return rounds


@contextlib.contextmanager
def script(folder, script_head, rounds):
    """A script with these rounds, for as long as it is wanted; a fault that names a line of it tells the line itself."""
    text = "\n".join(script_head) + "\n" + "nextjob\n".join(rounds)
    with tempfile.NamedTemporaryFile("w", suffix=".t", dir=folder, **UTF) as file:
        file.write(text)
        file.flush()
        try:
            yield file.name
        except Fault as fault:
            match = re.fullmatch(rf"\S+: {re.escape(file.name)}:(\d+): (\w+)", str(fault))
            if not match:
                raise
            line = text.split("\n")[int(match[1]) - 1]
            raise Fault(f'testsolv does not take the line "{line}": {match[2]}')


def answers(program, folder, script_head, rounds):
    """The lines of each round, or None for one that spends the whole budget by itself."""
    rounds = list(rounds)
    while rounds:
        with script(folder, script_head, rounds) as name:
            text, status = run(program, *BUDGET, name, statuses=(0, 1, 5))
        found = rounds_of(text)
        if status == 5:
            found = found[:-1] or [None]
        yield from found
        rounds = rounds[len(found) :]


def in_shares(work, rounds, size, processes, progress):
    """What the work gives for each share of the rounds and the place where it begins, in so many processes at a time."""
    places = range(0, len(rounds), size)
    with concurrent.futures.ThreadPoolExecutor(processes) as pool:
        for place, found in zip(places, pool.map(lambda place: work(rounds[place : place + size], place), places)):
            progress.step(len(rounds[place : place + size]))
            yield found
    progress.end()


def answered(program, folder, script_head, rounds, processes, progress, least=1):
    """The answers of the rounds by so many processes at a time, each with a share of them, and another one when that is done.

    Each reads the repositories for itself. Where that takes as long as so many rounds, a share has at least these.
    """
    work = lambda share, place: list(answers(program, folder, script_head, share))
    size = max(least, min(MOST, -(-len(rounds) // processes)))
    return [answer for found in in_shares(work, rounds, size, processes, progress) for answer in found]


def problems(lines):
    """The problems among the lines of a round, by their numbers."""
    found = collections.defaultdict(Problem)
    for line in lines:
        if match := PROBLEM.fullmatch(line):
            problem = found[int(match.group(1))]
            told = problem.info if match.group(2) == "info" else problem.solutions[int(match.group(3))]
            # (a line stands twice where it is told and differs from what is expected)
            if match.group(4) not in told:
                told.append(match.group(4))
    return dict(sorted(found.items()))
