"""Asks testsolv which packages can be installed: many at a time first, and then those alone of which that does not tell."""
import rounds
import testtags

COVER = "all-that-can-be-installed-together"
# so many packages are recommended at once, at most; and of each share so many have to come, or it is not done again
SHARE, GAIN = 8000, 40
# so many packages are asked for in one round, at most
TOGETHER = 250
# to read the repositories takes as long as so many rounds of packages together, and of packages alone (measured at 56 MB)
SHARES, ALONE = 10, 64


def covered(given, folder, head, shares, jobs, progress):
    """What comes when packages that recommend all of a share are installed, each in a round of its own with another job."""
    lines = []
    for number, share in enumerate(shares):
        lines += [f"#>=Pkg: {COVER}-{number} 1 1 noarch"] + [f"#>=Rec: {package.name} = {package.evr}" for package in share.values()]
    lines = head + [f"repo {COVER} 0 testtags <inline>", *lines, "solverflags noinfarchcheck"]
    asked = [f"job install name {COVER}-{number}\n{job}\n" for number, job in enumerate(jobs)]
    found = rounds.answered(given.program, folder, lines, asked, given.processes, progress)
    return {line.removeprefix("install ") for answer in found for line in answer or ()}


def uncovered(given, folder, head, rest):
    """What is left when packages that recommend shares of the rest are installed, again and again, as long as that helps."""
    is_first = True
    while rest:
        texts = list(rest)
        # (how many shares there are must not depend on the processes, or the lines of problems would)
        count = -(-len(rest) // SHARE)
        shares = [{text: rest[text] for text in texts[at::count]} for at in range(count)]
        # (what was passed over before, as another architecture of a name, comes first the next time)
        jobs = ["job noop" if is_first else f"job favor oneof {' '.join(share)}" for share in shares]
        progress = testtags.Progress(f"of {count} shares of {len(rest):,} packages tried together")
        came = covered(given, folder, head, shares, jobs, progress)
        left = {text: package for text, package in rest.items() if text not in came}
        gained, rest, is_first = len(rest) - len(left), left, False
        if gained < GAIN * count:
            break
    return rest


def rounds_for(packages):
    """A round for each package, whose problems alone are told."""
    return [f"solverflags noinfarchcheck\njob install pkg {text}\nresult problems <inline>\n" for text in packages]


def lines_of(problem):
    """The lines of a package's problem, without the job, which is this tool's own."""
    return [line for line in problem.info if line != "conflicting requests"] or problem.info


def together(given, folder, head, rest):
    """The packages that cannot be installed when shares of the rest are asked for together, and those that are not known then.

    A problem with one way out lists one job, so the package of the job cannot be installed at all. With several, the packages
    cannot be installed together. Those that no problem lists are in a set that meets all else, so they can be installed.
    """
    texts = list(rest)
    count = -(-len(texts) // TOGETHER)
    shares = [texts[at::count] for at in range(count)]
    jobs = ["".join(f"job install pkg {text}\n" for text in share) for share in shares]
    asked = [f"solverflags noinfarchcheck\n{all_of_share}result problems <inline>\n" for all_of_share in jobs]
    failing, unknown = {}, set()
    progress = testtags.Progress(f"of {count} shares asked for together")
    for share, answer in zip(shares, rounds.answered(given.program, folder, head, asked, given.processes, progress, SHARES)):
        if answer is None:
            unknown.update(share)
        for problem in rounds.problems(answer or ()).values():
            given_up = [line.removeprefix("deljob install pkg ") for lines in problem.solutions.values() for line in lines]
            if not given_up or not set(given_up) <= set(share):
                raise testtags.Fault(f"testsolv told of a way out that gives up what was not asked for: {given_up}")
            if len(problem.solutions) == len(given_up) == 1:
                failing[given_up[0]] = lines_of(problem)
            else:
                unknown.update(given_up)
    return failing, [text for text in texts if text in unknown and text not in failing]


def one_by_one(given, folder, head, unknown):
    """The packages that cannot be installed when each is asked for alone, and those over which the budget is spent."""
    progress = testtags.Progress(f"of {len(unknown):,} packages asked for alone")
    found = rounds.answered(given.program, folder, head, rounds_for(unknown), given.processes, progress, ALONE)
    failing = {text: lines_of(rounds.problems(answer)[1]) for text, answer in zip(unknown, found) if answer}
    return failing, [text for text, answer in zip(unknown, found) if answer is None]


def failing(given, folder, head, asked):
    """The packages that cannot be installed, each with the lines of its problem, and those over which the budget is spent."""
    rest = asked if given.only else uncovered(given, folder, head, asked)
    found, unknown = together(given, folder, head, rest) if rest else ({}, [])
    more, spent = one_by_one(given, folder, head, unknown)
    return {text: lines for text in rest if (lines := found.get(text) or more.get(text))}, spent
