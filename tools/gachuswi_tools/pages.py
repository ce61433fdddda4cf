"""Static pages of what a tool finds: their frame, lists of packages, and a problem as a tree and as a picture.

They need no network. page/style.css may be replaced; page/search.js adds a search, and all the rest is read without it. All texts
of repositories are foreign: they go through `esc`, or through `href` where they name a file.
"""
import collections
import contextlib
import datetime
import gzip
import hashlib
import html
import json
import os
import pathlib
import re
import shutil
import subprocess
import sys
import tempfile
import urllib.parse
import zlib

import picture
import rounds
import testtags
from dependencies import PLAIN, Reader, Unfit, is_namespace, leaves

HERE = pathlib.Path(__file__).resolve().parent / "page"
STATE, FORMAT = "state.json.gz", 1
# so many nodes has a tree of text at most, so many nodes and edges a picture, and so many lines stand open
TREE, DRAWN, EDGES, OPEN = 120, 40, 80, 12
# so many packages are named that have all in common in a problem, and so many packages that meet one requirement are looked at
SAME, MEETING = 4, 200
# so many providers of a name are kept for the next run
KEPT = 8
# what no page shows as it is: control characters, lone surrogates, and marks that turn the direction of a text
ODD = re.compile("[\0-\x08\x0b-\x1f\x7f-\x9f\ud800-\udfff\u200e\u200f\u202a-\u202e\u2066-\u2069\ufeff]")
IS_PLAIN = re.compile(PLAIN).fullmatch
# the words of edges behind which all ways fail, or that clash
BRANCHES = {"met by": "each of these fails", "in part met by": "no choice of these does"}
CLASHES = ("conflicts", "obsoletes", "not both", "erases", "locks")
FRAME = """\
<!DOCTYPE html>
<html lang="en">
<head>
<meta charset="utf-8">
<title>{title} · {site}</title>
<meta name="viewport" content="width=device-width, initial-scale=1">
<meta name="color-scheme" content="light dark">
<link rel="stylesheet" href="{up}style.css">
</head>
<body>
<a class="skip" href="#main">To the text</a>
{where}<main id="main">
{body}</main>
<footer><p>{site}, {date}. Made by Gachuswi{meaning}.</p></footer>
</body>
</html>
"""
SEARCH = """\
<form class="search" role="search" hidden><label for="search">Find a package</label> \
<input id="search" type="search" autocomplete="off" spellcheck="false"><div id="found" role="status"></div></form>
<noscript><p class="note">All packages: <a href="list.txt">list.txt</a>.</p></noscript>
"""
SCROLLED = 'tabindex="0" role="group" aria-label="{}, which can be scrolled"'
# how Graphviz is to draw; the colours are left to the style sheet
DOT = """\
digraph problem {{
rankdir=TB
bgcolor=transparent
nodesep=0.2
ranksep=0.35
margin=0.05
node [fontname="Helvetica", fontsize=11, height=0.3, margin="0.1,0.05"]
edge [fontname="Helvetica", fontsize=10, arrowsize=0.7]
{}}}
"""
# what of a drawing stands in no page: comments, titles, names and colours
UNWANTED = re.compile(r'<!--.*?-->\n?|<title>.*?</title>\n?| (?:xmlns(?::xlink)?|id|font-family|fill|stroke)="[^"]*"', re.DOTALL)


def esc(text):
    """A foreign text, which stands for itself and for no element."""
    return html.escape(ODD.sub(lambda one: f"\\x{ord(one[0]):02x}", str(text)))


def counted(number, one, more=None):
    return f"{number:,} {one if number == 1 else more or one + 's'}"


def file_name(text):
    """The name of a file for a text: letters and digits as they are, the rest by percent signs; a long one is cut."""
    name = urllib.parse.quote(text.encode(**testtags.UTF), safe="+~")
    return name if len(name) < 200 else f"{name[:150]}~{hashlib.sha256(name.encode()).hexdigest()[:16]}"


def href(path):
    """A link to a file of that name: its percent signs are a part of the name."""
    return html.escape(urllib.parse.quote(path, safe="/+~"))


def leaf_names(text):
    """The names in a dependency, without versions."""
    if IS_PLAIN(text):
        return [text.split(" ", 1)[0]]
    try:
        return [leaf.split()[0] for leaf in leaves(Reader(text).expression()) if not is_namespace(leaf)]
    except (Unfit, IndexError):
        return []


def date_of(given, paths):
    """The date of the pages: the one that is named, or else that of the newest repository."""
    seconds = os.environ.get("SOURCE_DATE_EPOCH", "")
    seconds = int(seconds) if seconds.isdecimal() else max(path.stat().st_mtime for path in paths)
    return given.date or datetime.datetime.fromtimestamp(seconds, datetime.timezone.utc).strftime("%Y-%m-%d %H:%M UTC")


def add_options(arguments):
    """Adds the options of pages."""
    arguments.add_argument("--html", metavar="FOLDER", type=pathlib.Path, help="writes pages into this folder, of which index.html is the first")
    arguments.add_argument("--since", metavar="FOLDER", type=pathlib.Path, help="the pages of an earlier run, also the same folder")
    arguments.add_argument("--title", metavar="TEXT", help="the title of the pages")
    arguments.add_argument("--date", metavar="TEXT", help="the date that they tell, in place of that of the newest repository")


def read_state(given, tool):
    """What an earlier run of the tool found, or None; it fails where pages cannot be written, before anything is asked."""
    if given.html:
        if given.html.exists() and not given.html.is_dir():
            raise testtags.Fault(f"{given.html}: it is no folder")
        if not os.access(given.html.resolve().parent, os.W_OK):
            raise testtags.Fault(f"{given.html}: it cannot be written, since its folder is not there, or may not be written")
        if given.html.is_dir() and any(given.html.iterdir()) and not (given.html / STATE).is_file():
            raise testtags.Fault(f"{given.html}: it is there, and has no {STATE} of an earlier run: name another folder")
        if not shutil.which("dot"):
            print("there will be no pictures, since there is no program dot: install the package graphviz", file=sys.stderr)
        if getattr(given, "proof", None) and given.html.resolve() in given.proof.resolve().parents:
            raise testtags.Fault(f"{given.proof}: the folder of the pages is replaced, and they get a copy: name a place outside of it")
    if not given.since:
        return None
    if not given.html:
        raise testtags.Fault("--since wants --html FOLDER, where what changed is told")
    if not given.since.exists() and given.since.resolve() == given.html.resolve():
        print(f"{given.since}: there are no pages of an earlier run yet, so nothing is compared", file=sys.stderr)
        return None
    file = given.since / STATE
    try:
        state = json.loads(gzip.decompress(file.read_bytes()))
        made = state["format"], state["tool"]
    except FileNotFoundError:
        raise testtags.Fault(f"{given.since}: it has no {STATE} of an earlier run")
    except (ValueError, EOFError, zlib.error, gzip.BadGzipFile, KeyError, TypeError) as error:
        raise testtags.Fault(f"{file}: it is no state of an earlier run: {error}")
    if made != (FORMAT, tool):
        raise testtags.Fault(f"{file}: it is of another tool or format: run once without --since")
    return state


@contextlib.contextmanager
def replaced(target):
    """A new folder, which takes the place of the target when it is whole; the old one is there until then."""
    target = target.resolve()
    with tempfile.TemporaryDirectory(prefix=".pages-", dir=target.parent) as name:
        new = pathlib.Path(name, "new")
        new.mkdir()
        yield new
        for one in ("style.css", "search.js"):
            shutil.copyfile(HERE / one, new / one)
        if target.exists():
            target.rename(pathlib.Path(name, "old"))
        new.rename(target)


class Repositories:
    """All packages by their texts, each with its text without @REPO, and who provides what some package asks for."""

    def __init__(self, paths, names):
        self.known, self.short, self.sources = {}, {}, []
        wanted, provided = set(), collections.defaultdict(list)
        for path, name in zip(paths, names):
            archs = collections.Counter()
            for package, lines in testtags.packages(path):
                text = rounds.package_text(package, name)
                archs[package.arch] += 1
                if text in self.known:
                    continue
                self.known[text] = package
                self.short[text] = text.removesuffix(f"@{name}")
                for line in lines:
                    if line.startswith(("=Prv:", "=Fls:")):
                        provided[line[6:].split()[0]].append(self.short[text])
                    elif line.startswith(("=Req:", "=Prq:")):
                        wanted.add(line[6:])
            self.sources.append((name, path, archs))
        named = {name for text in wanted for name in leaf_names(text)}
        self.providers = {name: sorted(set(provided[name]))[:KEPT] for name in sorted(named & provided.keys())}

    def state(self, tool, date):
        """What every tool keeps for the next run."""
        packages = {self.short[text]: package.name for text, package in self.known.items()}
        return {"format": FORMAT, "tool": tool, "date": date, "packages": packages, "providers": self.providers}

    def shorten(self, line):
        return " ".join(self.short.get(word, word) for word in line.split(" "))


def meeting(given, folder, head, problems):
    """The names of packages, and those that meet each requirement, conflict and selection of all the problems, as testsolv has it."""
    problem = rounds.Problem()
    for one in problems:
        problem.info += one.info
        problem.solutions[0] += [line for lines in one.solutions.values() for line in lines]
    problem.info = list(dict.fromkeys(problem.info))
    with rounds.script(folder, head, ["job noop\n"]) as script:
        names, met = picture.named_and_met(given.program, folder, script, problem)
    return names, met


class Graph:
    """Nodes with their texts, kind and notes, and edges. Packages that have all in common, to and from, are one node."""

    def __init__(self, drawn, itself=None):
        self.nodes = {node: (kind, tuple(notes)) for node, (kind, notes) in drawn.nodes.items()}
        self.texts, self.edges, self.itself = {node: [node] for node in self.nodes}, list(drawn.edges), itself
        while into := self.alike():
            for node, first in into.items():
                self.texts[first] += self.texts.pop(node)
                del self.nodes[node]
            self.edges = [edge for edge in self.edges if edge[0] not in into and edge[1] not in into]

    def alike(self):
        """The nodes that another one may stand for, each with that one."""
        before, after, first, into = collections.defaultdict(set), collections.defaultdict(set), {}, {}
        for start, end, *words in self.edges:
            after[start].add((end, *words))
            before[end].add((start, *words))
        for node, kind in self.nodes.items():
            if kind[0] == "package" and node != self.itself and before[node]:
                other = first.setdefault((kind, frozenset(before[node]), frozenset(after[node])), node)
                if other != node:
                    into[node] = other
        return into

    def roots(self):
        """Where the problem is told from: the package itself, or the jobs, and what is to be kept; first what nothing leads to."""
        ends = {end for _, end, *_ in self.edges}
        order = [self.itself] if self.itself in self.nodes else []
        for kinds in (("job",), ("kept",), picture.STYLES):
            order += sorted((node for node, (kind, _) in self.nodes.items() if kind in kinds and kind != "way"), key=lambda node: node in ends)
        return list(dict.fromkeys(order))


class Pages:
    """The files of a folder; `page_of` has the file of each package that has a page of its own, and `home` the one repository asked."""

    def __init__(self, folder, repositories, title, date, page_of, home=None):
        self.folder, self.repositories, self.title, self.date = folder, repositories, title, date
        self.page_of, self.home = page_of, home

    # --- the frame ---

    def write(self, path, text):
        place = self.folder / path
        place.parent.mkdir(parents=True, exist_ok=True)
        place.write_bytes(text.encode("utf-8", "backslashreplace"))

    def write_state(self, state):
        """What the next run compares with."""
        text = json.dumps(state, ensure_ascii=True, separators=(",", ":"), sort_keys=True) + "\n"
        (self.folder / STATE).write_bytes(gzip.compress(text.encode(), 6, mtime=0))

    def page(self, path, title, body, crumbs=()):
        up, where, meaning = "../" * path.count("/"), "", ""
        if path != "index.html":
            links = "".join(f'<li><a href="{up}{href(place)}">{esc(name)}</a></li>' for place, name in (("index.html", self.title), *crumbs))
            where = f'<nav aria-label="Where this page is"><ol class="crumbs">{links}<li aria-current="page">{esc(title)}</li></ol></nav>\n'
            meaning = f'; <a href="{up}index.html#meaning">what is proved</a>'
        self.write(path, FRAME.format(title=esc(title), site=esc(self.title), up=up, where=where, body=body, date=esc(self.date), meaning=meaning))

    # --- packages ---

    def name(self, text, up="", link=True):
        """A package, with a link to its page where it has one; its repository stands behind, less dark, where it is not the one asked."""
        short = self.repositories.short.get(text)
        if short is None:
            return esc(text)
        repo = text[len(short) :]
        shown = esc(short) + ("" if repo == f"@{self.home}" else f'<span class="repo">{esc(repo)}</span>')
        if not link or text not in self.page_of:
            return shown
        # (pages of packages are many, so a link from one to another is the shortest)
        place = self.page_of[text]
        return f'<a href="{"../" + href(place.removeprefix("package/")) if up == "../../" else up + href(place)}">{shown}</a>'

    def plain(self, line):
        """A line of a problem without links, with its repositories less dark."""
        return " ".join(self.name(word.rstrip(","), link=False) + "," * word.endswith(",") for word in line.split(" "))

    def names(self, texts, up="", most=None, note=lambda text: "", kind="packages"):
        """A list of packages."""
        return listed([f"{self.name(text, up)}{note(text)}" for text in texts[:most]], len(texts), kind)

    def lines(self, lines):
        """The lines of a problem as testsolv tells them; many are folded."""
        return folded("lines", [*map(esc, lines)], "lines")

    def sources(self):
        """The table of the repositories."""
        rows = []
        for name, path, archs in self.repositories.sources:
            digest = hashlib.sha256(path.read_bytes()).hexdigest()
            rows.append(
                f'<tr><th scope="row">{esc(name)}</th><td class="number">{sum(archs.values()):,}</td>'
                f'<td class="number">{path.stat().st_size:,}</td><td class="digest">{digest}</td></tr>\n'
            )
        heads = "".join(
            f'<th scope="col"{kind}>{word}</th>'
            for word, kind in (("Name", ""), ("Packages", ' class="number"'), ("Bytes", ' class="number"'), ("SHA-256", ""))
        )
        return (
            f'<div class="wide" {SCROLLED.format("Table")}><table><caption>Repositories</caption><thead><tr>{heads}</tr></thead>\n'
            f'<tbody>{"".join(rows)}</tbody></table></div>\n'
        )

    def search_list(self, rows, words):
        """What the search goes through: a text, what is said of it, and its page, or a text alone of which `words` are said."""
        clean = lambda text: ODD.sub("?", text)
        self.write("list.txt", "".join(f"{clean(text)}\t{said}\n" for text, said, _ in rows))
        # (a page that is opened as a file may not read list.txt, but it may run this)
        data = [[clean(text), said, page] if said else clean(text) for text, said, page in rows]
        packed = json.dumps([*words, data], ensure_ascii=True, separators=(",", ":"))[1:-1].replace("<", "\\u003c")
        self.write("list.js", f"packages({packed});\n")

    # --- problems ---

    def said(self, graph, node, words, up):
        """A node of a tree, behind the words of the edge to it."""
        (kind, notes), texts = graph.nodes[node], graph.texts[node]
        if kind == "missing":
            what = node.removeprefix("nothing provides ")
            what = f"<b>{esc(f'{what}, which nothing provides' if what != node and words == 'requires' else node)}</b>"
        elif kind == "job":
            what = f"<strong>job {self.plain(node)}</strong>"
        elif node == graph.itself or kind == "kept":
            what = f"<strong>{self.name(node, up, link=node != graph.itself)}</strong>"
        else:
            what = ", ".join(self.name(one, up) for one in texts[:SAME]) + (f" and {len(texts) - SAME} more" if len(texts) > SAME else "")
        mark = "b" if words.startswith(CLASHES) else "i"
        return (f"<{mark}>{esc(words)}</{mark}> " if words else "") + what + "".join(f' <span class="note">{esc(note)}</span>' for note in notes)

    def tree(self, graph, up=""):
        """The problem in words: one thing after another as long as there is one way on, and then all that lie ahead."""
        below = collections.defaultdict(list)
        for start, end, words, _ in graph.edges:
            if graph.nodes[end][0] != "way":
                below[start].append((end, words))
        told, left = set(), [TREE]

        def chain(node, words):
            items = []
            while True:
                left[0] -= 1
                again = node in told and below[node]
                items.append(self.said(graph, node, words, up) + (' <span class="note">(see above)</span>' if again else ""))
                told.add(node)
                ways = [] if again or left[0] < 0 else below[node]
                if len(ways) != 1:
                    break
                node, words = ways[0]
            if ways:
                branches = "".join(f"<li>{chain(*way)}</li>" for way in ways)
                items[-1] += f"<p>{BRANCHES.get(ways[0][1], 'all of this together')}</p><ul>{branches}</ul>"
            elif left[0] < 0 and below[node] and not again:
                items[-1] += ' <span class="note">the rest is in the lines</span>'
            return "<ol>" + "".join(f"<li>{item}</li>" for item in items) + "</ol>"

        # (a loop, and no list: what one root tells need not be told by the next)
        trees = []
        for root in graph.roots():
            if root not in told and left[0] > 0:
                trees.append(chain(root, ""))
        return f'<div class="tree">{"".join(trees)}</div>\n'

    def drawing(self, graph, label):
        """A picture by Graphviz, or nothing where it is too large or there is no Graphviz."""
        # (a limit of time would draw it on one day and not on another)
        if not shutil.which("dot") or not 2 <= len(graph.nodes) <= DRAWN or len(graph.edges) > EDGES:
            return ""
        done = subprocess.run(["dot", "-Tsvg"], input=self.dot(graph), capture_output=True, **testtags.UTF)
        if done.returncode != 0:
            raise testtags.Fault(f"dot: {done.stderr.strip()}")
        svg = UNWANTED.sub("", done.stdout[done.stdout.index("<svg") :])
        svg = svg.replace("<svg ", f'<svg role="img" aria-label="{esc(label)}" ', 1)
        return f'<div class="drawing" {SCROLLED.format("Picture")}>{svg}</div>\n'

    def dot(self, graph):
        """The text that Graphviz draws; the kinds of nodes and edges are classes."""
        # (Graphviz reads the entities of HTML itself, and a quote is a quote there)
        quoted = lambda *lines: '"' + "\\n".join(esc(line).replace("\\", "\\\\") for line in lines) + '"'
        ids, cut = {node: f"n{n}" for n, node in enumerate(graph.nodes)}, lambda words: words if len(words) < 60 else f"{words[:57]}…"
        few = lambda items: items[:SAME] + ([f"and {len(items) - SAME} more"] if len(items) > SAME else [])
        shown = lambda text: cut(self.repositories.short.get(text, text) if text.endswith(f"@{self.home}") else text)
        lines = []
        for node, (kind, notes) in graph.nodes.items():
            told = few([shown(one) for one in graph.texts[node]]) + few([*map(cut, notes)])
            shape = {"wanted": "plaintext", "way": "note"}.get(kind, "box")
            lines.append(f'{ids[node]} [label={quoted(*told)}, class="{"this" if node == graph.itself else kind}", shape={shape}]\n')
        for start, end, words, style in graph.edges:
            kind = "bad" if picture.CLASH in style else "faint" if "style=" in style else "plain"
            ends = ", dir=none" if "dir=none" in style or "arrowhead=none" in style else ""
            lines.append(f"{ids[start]} -> {ids[end]} [label={quoted(f' {cut(words)} ')}, class={kind}{ends}]\n")
        return DOT.format("".join(lines))


def folded(what, items, kind="", most=OPEN):
    """A list of items, which is folded where they are many."""
    told = listed(items, kind=kind)
    return told if len(items) <= most else f"<details><summary>{len(items):,} {what}</summary>{told}</details>\n"


def listed(items, count=None, kind=""):
    """A list of items, and how many more there are of so many."""
    items = list(items)
    more = f'<li class="more">and {count - len(items):,} more</li>' if count and count > len(items) else ""
    return (f'<ul class="{kind}">' if kind else "<ul>") + "".join(f"<li>{item}</li>\n" for item in items) + more + "</ul>\n"
