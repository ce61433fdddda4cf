"""What changed between an earlier run, whose pages are there, and this one, and which change stands behind a problem."""
import collections

import picture
import testtags
from pages import STATE, leaf_names


class Since:
    """The packages of the repositories that came and went since an earlier run, by their texts without @REPO."""

    def __init__(self, state, place, repositories):
        self.repositories = repositories
        try:
            self.date, self.packages, self.providers = state["date"], state["packages"], state["providers"]
            self.lines = {what: [state["lines"][number] for number in numbers] for what, numbers in state["failing"].items()}
        except (KeyError, TypeError, IndexError, AttributeError) as error:
            raise testtags.Fault(f"{place / STATE}: it is no state of an earlier run: {error}")
        now = {repositories.short[text]: package.name for text, package in repositories.known.items()}
        self.came = {short: name for short, name in now.items() if short not in self.packages}
        self.went = {short: name for short, name in self.packages.items() if short not in now}
        self.came_of, self.went_of = collections.defaultdict(list), collections.defaultdict(list)
        for table, of_name in ((self.came, self.came_of), (self.went, self.went_of)):
            for short, name in table.items():
                of_name[name].append(short)

    def change(self, short):
        """What became of a package that went, or what one that came took the place of, by its name."""
        if short in self.went:
            more = self.came_of.get(self.went[short])
            return f"{short} became {', '.join(more[:3])}" if more else f"{short} went"
        more = self.went_of.get(self.came[short])
        return f"{', '.join(more[:3])} became {short}" if more else f"{short} came"

    def behind(self, lines, itself=None):
        """The changes that stand behind these lines, each in words with what makes it one.

        It is a package that came or went and stands in the lines, or that provided then what a line asks for: one that is gone
        stands in no line. This goes by names without versions.
        """
        found = collections.defaultdict(list)
        for name in asked_names(lines):
            for short in self.providers.get(name, self.went_of.get(name, ())):
                if short in self.went:
                    found[self.change(short)].append(f"{short} provided {name}")
        words = {word.rstrip(",").rsplit("@", 1)[0] for line in lines for word in line.split()}
        for short in sorted((words & self.came.keys()) - {itself}):
            found[self.change(short)].append(f"{short} stands in the lines")
        return {change: list(dict.fromkeys(hows)) for change, hows in found.items()}

    def mending(self, what):
        """The changes that stand behind what is mended: who provides now what nothing provided, and who went of its lines."""
        lines, found = self.lines[what], []
        for name in asked_names(lines):
            found += [self.change(one) for one in self.repositories.providers.get(name, self.came_of.get(name, ())) if one in self.came]
        words = {word.rstrip(",") for line in lines for word in line.split()}
        return list(dict.fromkeys(found + [self.change(one) for one in sorted(words & self.went.keys())]))


def asked_names(lines):
    """The names that the lines ask for and that nothing provides, or nothing that can be installed."""
    for line in lines:
        kind, match = picture.rule_of(line)
        if kind in ("nothing provides", "requires"):
            yield from leaf_names(match[1 if kind == "nothing provides" else 2])


def kept_lines(failing, shorten):
    """Lines of failing things as a table of distinct lines and their numbers, which is what a state keeps."""
    table, numbers = {}, {}
    for what, lines in failing.items():
        numbers[what] = [table.setdefault(shorten(line), len(table)) for line in lines]
    return {"lines": list(table), "failing": numbers}
