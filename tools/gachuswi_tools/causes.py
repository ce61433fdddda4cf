"""What the lines of problems say, read by their words: causes that many share, who is at fault, and what would mend it."""
import collections
import heapq
import re

import picture

# lines that say more of a cause come first where as many packages share them
WEIGHTS = ("nothing provides", "is not installable", "conflicts with", "cannot install both", "obsoletes", "inferior architecture")


def cause_of(line):
    """What of a line may be shared by most: not who needs what nothing provides."""
    return re.sub(r"^(nothing provides .*) needed by \S+$", r"\1", line)


def groups(failing):
    """The packages by the cause that most of them share, the greatest group first."""
    having = collections.defaultdict(list)
    for text, lines in failing.items():
        for line in dict.fromkeys(map(cause_of, lines)):
            having[line].append(text)
    weight = {line: next((n for n, words in enumerate(WEIGHTS) if words in line), len(WEIGHTS)) for line in having}
    queue = [(-len(texts), weight[line], line) for line, texts in having.items()]
    heapq.heapify(queue)
    rest = dict(failing)
    while rest:
        count, _, line = heapq.heappop(queue)
        group = [text for text in having[line] if text in rest]
        if len(group) == -count:
            yield line, {text: rest.pop(text) for text in group}
        elif group:
            heapq.heappush(queue, (-len(group), weight[line], line))


def at_fault(line):
    """The packages of whom a line says what is wrong: a change of one of them would mend it."""
    kind, match = picture.rule_of(line)
    if kind is None:
        return []
    packages = {"nothing provides": (2,), "kept": (2,), "best": (2,), "both": (1, 2), "conflicts with": (1, 3), "obsoletes": (1, 3)}.get(kind, (1,))
    found = [match[number] for number in packages if number <= match.re.groups]
    return [text for text in found if "@" in text]


def mending(lines):
    """What would mend each of the lines, in words, each with the packages that it names."""
    needing, against, told = collections.defaultdict(list), collections.defaultdict(list), []
    for line in lines:
        kind, match = picture.rule_of(line)
        if kind == "nothing provides":
            needing[match[1]].append(match[2])
        elif kind in ("conflicts with", "obsoletes"):
            against[match[1], kind, match[2]] += match.groups()[2:]
        elif kind == "both":
            told.append(["let nothing need both", match[1], "and", match[2]])
    for wanted, packages in needing.items():
        yield ["add a package that provides", f"{wanted},", "or rebuild", *some(packages), "without it"]
    for (package, kind, wanted), others in against.items():
        more = ["or let", *some(others), "not provide it"] if others else []
        yield ["mend", package, "so that it no longer", kind, f"{wanted}," if more else wanted, *more]
    yield from told


def some(packages):
    """The first two packages, and how many more there are."""
    if len(packages) == 1:
        return packages
    return [packages[0], "and", packages[1]] if len(packages) == 2 else [f"{packages[0]},", packages[1], f"and {len(packages) - 2} more"]
