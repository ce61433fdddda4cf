#!/usr/bin/env python3
"""Draws a problem of a script: its packages, what they require, what conflicts, and what each way out gives up.

    gachuswi-tools picture SCRIPT [--round N] [--problem N] [--svg FILE]

SCRIPT is a script of testsolv (docs/FORMATS.md). Of its rounds the first with a problem is taken where none is named, and of
the problems the first. Without --svg it is drawn as text: below each job and each package that is to be kept stands what it
needs or clashes with. With --svg Graphviz draws it into FILE, which may end with .png or .pdf too: jobs are blue, packages
white, what nobody provides and what clashes red, and the ways out dashed. A package points to what meets its requirement.

All that is drawn is what testsolv prints of the problem; which package meets what is asked of it too.
"""
import pathlib
import re
import shutil
import subprocess
import tempfile

import providers
import rounds
import testtags
from dependencies import Reader, is_namespace, leaves, operators_of

# the texts of rules, and how they are drawn
RULES = [
    (re.compile(text), kind)
    for text, kind in (
        (r"package (\S+) requires (.*), but none of the providers can be installed", "requires"),
        (r"nothing provides (.*) needed by (\S+)", "nothing provides"),
        (r"nothing provides requested (.*)", "nothing requested"),
        (r"package (\S+) conflicts with (.*) provided by (\S+)", "conflicts with"),
        (r"package (\S+) conflicts with (.*)", "conflicts with"),
        (r"package (\S+) obsoletes (.*) provided by (\S+)", "obsoletes"),
        (r"cannot install both (\S+) and (\S+)", "both"),
        (r"package (\S+) (is not installable)", "note"),
        (r"(\S+) (has inferior architecture)", "note"),
        (r"(problem with installed package) (\S+)", "kept"),
        (r"(cannot install the best update candidate for package) (\S+)", "best"),
    )
]
STYLES = {
    "job": 'shape=box, style="rounded,filled", fillcolor="#cfe2f3"',
    "package": 'shape=box, style=filled, fillcolor="white"',
    "kept": 'shape=box, style=filled, fillcolor="#fff2cc"',
    "missing": 'shape=box, style=filled, fillcolor="#f4cccc"',
    "wanted": "shape=plaintext",
    "way": "shape=note, style=dashed",
}
# so many packages at most are drawn that meet one requirement
MOST = 6
# ways out that give up a job, or a part of it
OF_JOBS = ("deljob ", "dropbest ")
CLASH = 'color="#cc0000", fontcolor="#cc0000"'


def rule_of(line):
    """The kind of rule that a line tells of, and its match; or None twice."""
    return next(((kind, match) for form, kind in RULES if (match := form.fullmatch(line))), (None, None))


class Picture:
    """Nodes, each with its kind and lines, and edges with their words. Of those that meet a requirement `most` are drawn."""

    def __init__(self, problem, names, met_by, most=MOST):
        self.nodes, self.edges, self.names, self.meeting, self.most = {}, [], names, met_by, most
        ways = [line for lines in problem.solutions.values() for line in lines]
        for job in sorted({line.split(" ", 1)[1] for line in ways if line.startswith(OF_JOBS)}):
            self.job(job)
        for line in problem.info:
            self.rule(line)
        self.successors()
        for number, lines in problem.solutions.items():
            self.way(f"way out {number}", lines)

    def node(self, text, kind="package", note=None):
        known = self.nodes.setdefault(text, [kind, []])
        if kind == "kept":
            known[0] = kind
        if note and note not in known[1]:
            known[1].append(note)
        return text

    def edge(self, start, end, words, style=""):
        if (start, end, words, style) not in self.edges:
            self.edges.append((start, end, words, style))

    def job(self, job):
        action, _, selection = job.partition(" ")
        for package in self.meeting.get(selection, ())[: self.most]:
            is_clash = action in ("erase", "lock")
            words = f"{action}s" if is_clash else "asks for"
            self.edge(self.node(job, "job"), self.node(package), words, CLASH if is_clash else "")
        self.node(job, "job")

    def rule(self, line):
        kind, match = rule_of(line)
        if kind:
            return getattr(self, kind.replace(" ", "_"))(*match.groups())
        # (the jobs stand there already)
        return None if line == "conflicting requests" else self.node(line, "missing")

    def requires(self, package, wanted):
        met = self.meeting.get(wanted, ())
        if len(met) == 1:
            self.edge(self.node(package), self.node(met[0]), f"requires {wanted}")
            return
        more = f"met by {len(met) - self.most} more" if len(met) > self.most else None
        self.edge(self.node(package), self.node(wanted, "wanted", more), "requires")
        is_whole = operators_of(Reader(wanted).expression()) <= {"or"}
        for other in met[: self.most]:
            self.edge(wanted, self.node(other), "met by" if is_whole else "in part met by")

    def nothing_provides(self, wanted, package):
        self.edge(self.node(package), self.node(f"nothing provides {wanted}", "missing"), "requires", CLASH)

    def nothing_requested(self, wanted):
        for job in [text for text, (kind, _) in self.nodes.items() if kind == "job" and text.endswith(f" {wanted}")]:
            self.edge(job, self.node(f"nothing provides {wanted}", "missing"), "asks for", CLASH)

    def conflicts_with(self, package, wanted, other=None):
        for end in [other] if other else self.meeting.get(wanted) or [self.node(wanted, "wanted")]:
            self.edge(self.node(package), self.node(end), f"conflicts with {wanted}", CLASH)

    def obsoletes(self, package, wanted, other):
        self.edge(self.node(package), self.node(other), f"obsoletes {wanted}", CLASH)

    def both(self, package, other):
        self.edge(self.node(package), self.node(other), "not both", CLASH + ", dir=none")

    def note(self, package, note):
        self.node(package, note=note)

    def kept(self, _, package):
        self.node(package, "kept", "installed: to stay, or to be replaced")

    def best(self, _, package):
        self.node(package, "kept", "installed: its best update is wanted")

    def successors(self):
        """Leads from each package that is to be kept to those of its name that are drawn."""
        joined = {frozenset(edge[:2]) for edge in self.edges}
        for package in [text for text, (kind, _) in self.nodes.items() if kind == "kept"]:
            namesakes = [other for other, name in self.names.items() if name == self.names.get(package) and other != package]
            for other in namesakes:
                if other in self.nodes and {package, other} not in joined:
                    self.edge(package, other, "may become", "style=dotted")

    def way(self, name, lines):
        self.nodes[name] = ["way", lines]
        for line in lines:
            word, _, rest = line.partition(" ")
            given_up = rest if word in ("deljob", "dropbest") else rest.split()[0]
            if given_up in self.nodes:
                self.edge(given_up, name, "", 'style=dashed, arrowhead=none, color="#888888"')

    def text(self):
        """The picture as a tree of text, from the jobs and from what is to be kept."""
        told, lines = set(), []

        def tell(node, words, depth):
            kind, notes = self.nodes[node]
            said = f"{words + ': ' if words else ''}{'job ' if kind == 'job' else ''}{node}" + "".join(f" ({note})" for note in notes)
            again = node in told and any(start == node for start, *_ in self.edges)
            lines.append("   " * depth + ("-> " if depth else "") + said + (" (see above)" if again else ""))
            if node not in told:
                told.add(node)
                for start, end, edge_words, _ in self.edges:
                    if start == node and self.nodes[end][0] != "way":
                        tell(end, edge_words, depth + 1)

        for kinds in (("job",), ("kept",), STYLES):
            for node in [node for node, (kind, _) in self.nodes.items() if kind in kinds and kind != "way"]:
                if node not in told:
                    tell(node, "", 0)
        ways = [f"{node}: {', '.join(said)}" for node, (kind, said) in self.nodes.items() if kind == "way"]
        return "".join(f"{line}\n" for line in lines + ways)

    def dot(self, title):
        quoted = lambda *lines: '"' + "\\n".join(line.replace("\\", "\\\\").replace('"', '\\"') for line in lines) + '"'
        label = lambda node, kind: node.replace("@", " @ ") if kind in ("package", "kept") else node
        nodes = "".join(f"{quoted(node)} [label={quoted(label(node, kind), *notes)}, {STYLES[kind]}]\n" for node, (kind, notes) in self.nodes.items())
        edges = "".join(
            f"{quoted(start)} -> {quoted(end)} [label={quoted(f' {words} ')}{', ' + style if style else ''}]\n"
            for start, end, words, style in self.edges
        )
        return (
            f'digraph problem {{\nlabel={quoted(title)}\nlabelloc=t\nfontname="sans-serif"\nfontsize=12\n'
            f'node [fontname="sans-serif", fontsize=11]\nedge [fontname="sans-serif", fontsize=10]\n{nodes}{edges}}}\n'
        )


def choices_of(lines):
    """The requirements and conflicts of a problem and the selections of its jobs, each with what single packages may meet of it."""
    choices = {}
    for line in lines:
        kind, match = rule_of(line)
        if kind in ("requires", "conflicts with"):
            wanted = match.group(2)
            choices[wanted] = [f"provides {leaf}" for leaf in leaves(Reader(wanted).expression()) if not is_namespace(leaf)]
        if line.startswith(OF_JOBS):
            selection = line.split(" ", 2)[2]
            choices[selection] = [selection.split(" [")[0]]
    return choices


def named_and_met(program, folder, script, problem):
    """Packages by name, and those that meet each requirement, conflict and selection of a problem."""
    lines = problem.info + [line for way in problem.solutions.values() for line in way]
    texts = {word.rstrip(",") for line in lines for word in line.split() if "@" in word}
    choices = choices_of(lines)
    named, met = providers.meeting(program, folder, script, texts, {one for some in choices.values() for one in some})
    return named, {what: list(dict.fromkeys(package for one in some for package in met[one])) for what, some in choices.items()}


def main(given):
    testtags.expect_writable(given.svg)
    answers = rounds.rounds_of(rounds.run(given.program, *rounds.BUDGET, "-r", given.script, statuses=(0, 1))[0])
    problems = [rounds.problems(answer) for answer in answers]
    number = given.round or next((n for n, found in enumerate(problems, 1) if found), 0)
    if not 0 < number <= len(problems) or given.problem not in problems[number - 1]:
        raise testtags.Fault(f"{given.script}: {'it has no such problem' if number else 'no round prints a problem'}")
    problem = problems[number - 1][given.problem]
    with tempfile.TemporaryDirectory() as folder:
        picture = Picture(problem, *named_and_met(given.program, folder, given.script, problem))
    title = f"{given.script.name}, round {number}, problem {given.problem}"
    if not given.svg:
        print(f"{title}\n\n{picture.text()}", end="")
        return 0
    if not shutil.which("dot"):
        raise testtags.Fault("there is no program dot: install the package graphviz, or leave --svg out")
    command = ["dot", f"-T{given.svg.suffix[1:] or 'svg'}", "-o", given.svg]
    drawn = subprocess.run(command, input=picture.dot(title), capture_output=True, **testtags.UTF)
    if drawn.returncode != 0:
        raise testtags.Fault(f"{given.svg}: {drawn.stderr.strip()}")
    return 0


if __name__ == "__main__":
    arguments = testtags.arguments(__doc__)
    arguments.add_argument("script", metavar="SCRIPT", type=pathlib.Path)
    arguments.add_argument("--round", metavar="N", type=int)
    arguments.add_argument("--problem", metavar="N", type=int, default=1)
    arguments.add_argument("--svg", metavar="FILE", type=pathlib.Path)
    arguments.add_argument("--program", type=pathlib.Path, default=rounds.TESTSOLV, help="testsolv, where it is not where it was built")
    testtags.run(main, arguments)
