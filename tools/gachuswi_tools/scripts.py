"""Scripts that testsolv has written as one text (docs/FORMATS.md, "A script as one text"), for the tools that take them apart."""
import collections

# a package: its repository, its text, its line, and the lines below it, without the sign of what is inline
Written = collections.namedtuple("Written", "repo text heading lines")


def before_rounds(text):
    """The lines before the first round. What is expected in a round may look like any line, and a round begins with its flags."""
    return [] if text.startswith("solverflags ") else text.partition("\nsolverflags ")[0].split("\n")


def packages_of(lines):
    """The packages among the lines before the rounds, one after the other."""
    repo = package = None
    for line in lines:
        if line.startswith("#>") and not line.startswith("#>=Pkg: "):
            package.lines.append(line[2:])
            continue
        if package:
            yield package
            package = None
        if line.startswith("repo "):
            repo = line.split()[1]
        elif line.startswith("#>"):
            _, name, version, release, arch = line.split()
            evr = version if release == "-" else f"{version}-{release}"
            package = Written(repo, f"{name}-{evr}.{arch}@{repo}", line[2:], [])
    if package:
        yield package


class Script:
    """A script in parts: the lines of its repositories by name, their packages, the lines on the machine, and those of each round."""

    def __init__(self, text):
        head = before_rounds(text)
        self.packages = list(packages_of(head))
        plain = [line for line in head if line and not line.startswith("#>")]
        self.repos = {line.split()[1]: line for line in plain if line.startswith("repo ")}
        self.machine = [line for line in plain if not line.startswith("repo ")]
        rounds = text if not head else text[text.index("\nsolverflags ") + 1 :]
        self.rounds = [[line for line in one.split("\n") if line] for one in rounds.split("\nnextjob\n")]
