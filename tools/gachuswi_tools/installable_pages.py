"""The pages that installable.py writes: what fails, by its causes, and what changed since an earlier run."""
import collections
import gzip
import os
import re
import shutil

import causes
import pages
import picture
import rounds
import testtags
from pages import counted, esc, listed
from since import Since, kept_lines

# so many causes, changes and packages of each stand on the first page, and so many packages on one page of a cause
CAUSES, CHANGES, NAMES, ON_PAGE = 200, 40, 8, 1000
# so many packages are named that have to act for a cause on the first page, and on its own
ACTING, ACTING_ALL = 3, 12
# a script of more bytes than this is packed
PACK = 4_000_000
TITLE = "What cannot be installed"


class Found:
    """What a run found: the packages that were asked for, those that fail with their lines, and their causes."""

    def __init__(self, given, folder, head, paths, names, asked, failing, spent):
        self.given, self.asked, self.failing, self.spent = given, asked, failing, spent
        self.names, self.repositories = names, pages.Repositories(paths, names)
        self.groups = [(cause, list(group)) for cause, group in causes.groups(failing)]
        self.group_of = {text: number for number, (_, texts) in enumerate(self.groups, 1) for text in texts}
        self.fail_with = collections.defaultdict(list)
        for text, lines in failing.items():
            for word in sorted({word for line in lines for word in line.split()} - {text}):
                if word in failing:
                    self.fail_with[word].append(text)
        distinct = rounds.Problem()
        distinct.info = [line for lines in failing.values() for line in lines]
        _, met = pages.meeting(given, folder, head, [distinct]) if failing else ({}, {})
        # (those of other architectures last)
        is_other = lambda text: self.repositories.known[text].arch not in rounds.ALLOWED[given.arch] if text in self.repositories.known else False
        self.met = {what: sorted(texts, key=is_other) for what, texts in met.items()}

    def graph(self, text):
        """The picture of a package's problem."""
        problem = rounds.Problem()
        problem.info = self.failing[text]
        return pages.Graph(picture.Picture(problem, {}, self.met, pages.MEETING), text)

    def at_fault(self, number):
        """The packages of which the lines of a cause say what is wrong, the most named first."""
        cause, texts = self.groups[number - 1]
        found = collections.Counter(
            package for text in texts for line in self.failing[text] if causes.cause_of(line) == cause for package in causes.at_fault(line)
        )
        return sorted(found, key=lambda text: (-found[text], text))

    def files(self):
        """The file of each failing package. The repository stands in its name only where two packages differ in nothing else."""
        short = self.repositories.short
        times, taken, files = collections.Counter(short[text] for text in self.failing), set(), {}
        for text in self.failing:
            one = short[text] if times[short[text]] == 1 else text
            letters = re.sub(r"[^a-z0-9]", "_", one[:2].lower()).ljust(2, "_")
            place = f"{letters}/{pages.file_name(one)}"
            # (two names that differ in case only are one file for some systems)
            while place.lower() in taken:
                place += "~"
            taken.add(place.lower())
            files[text] = f"package/{place}.html"
        return files


class Changes(Since):
    """What is newly broken and what is mended since an earlier run."""

    def __init__(self, state, place, found):
        super().__init__(state, place, found.repositories)
        short = self.repositories.short
        try:
            self.first, asked_then = state["first"], state["asked"]
        except KeyError as error:
            raise testtags.Fault(f"{place / pages.STATE}: it is no state of an earlier run: {error}")
        failing, asked = {short[text] for text in found.failing}, {short[text] for text in found.asked}
        self.broke = [text for text in found.failing if asked_then.get(short[text]) == 0]
        self.came_broken = [text for text in found.failing if short[text] in self.came]
        self.fresh = {*self.broke, *self.came_broken}
        self.mended = [one for one in self.lines if one in asked and one not in failing]
        self.went_broken = [one for one in self.lines if one in self.went]


class InstallablePages(pages.Pages):
    """The files of a folder that tell what cannot be installed."""

    def __init__(self, folder, found, changes, date):
        given, names = found.given, found.names
        asked = names[: len(given.repos)]
        super().__init__(folder, found.repositories, given.title or " and ".join(asked), date, found.files(), asked[0] if len(asked) == 1 else None)
        self.found, self.changes = found, changes
        short = self.repositories.short
        self.first = {short[text]: changes.first.get(short[text], date) if changes else date for text in found.failing}
        self.vendors = {found.asked[text].vendor for text in found.asked} - {""}
        self.proofs, self.script = {}, ""

    def new(self, text):
        return ' <span class="new">new</span>' if self.changes and text in self.changes.fresh else ""

    def cause(self, number, up=""):
        return f'<a href="{up}group/{number}.html">{self.plain(self.found.groups[number - 1][0])}</a>'

    def vendor(self, text):
        package = self.repositories.known.get(text)
        return package.vendor if package else ""

    # --- one package ---

    def package_page(self, text):
        found, up = self.found, "../../"
        package, short, number, lines = found.asked[text], self.repositories.short[text], found.group_of[text], found.failing[text]
        since = f", at least since {esc(self.first[short])}" if self.first[short] != self.date else ""
        others = len(found.groups[number - 1][1]) - 1
        shares = f", which it shares with {others:,} more" if others else ""
        body = [
            f'<h1>{esc(package.name)} <span class="repo">{esc(short.removeprefix(package.name + "-"))}</span></h1>\n',
            f'<p class="lead">It cannot be installed{since}. Cause {number}{shares}: {self.cause(number, up)}</p>\n',
            f'<dl class="facts"><dt>Vendor</dt><dd>{esc(package.vendor) or "none named"}</dd>'
            f"<dt>Repository</dt><dd>{esc(text[len(short) + 1:])}</dd></dl>\n",
            f"<h2>Why</h2>\n{self.tree(found.graph(text), up)}",
            self.changed(text),
            self.ways_out(short, lines),
        ]
        if with_it := found.fail_with.get(text):
            body.append(f"<h2>Fail with it: {len(with_it):,}</h2>\n<p>Its name stands in the lines of these.</p>\n{self.names(with_it, up, 12)}")
        body += [f"<h2>The lines of the problem</h2>\n{self.lines(lines)}", self.proof(text, up)]
        self.page(self.page_of[text], short, "".join(body), [(f"group/{number}.html", f"Cause {number}")])

    def changed(self, text):
        """What changed for a package that is newly broken."""
        changes, short = self.changes, self.repositories.short[text]
        if not changes or text not in changes.fresh:
            return ""
        olds = changes.went_of.get(self.found.asked[text].name, [])
        told = (
            "It could be installed then."
            if text in changes.broke
            else f"It came since, and took the place of {esc(', '.join(olds[:3]))}."
            if olds
            else "It came since."
        )
        whys = changes.behind(self.found.failing[text], short)
        items = [
            f"<strong>{esc(change)}</strong>: {esc('; '.join(hows[:3]))}{f' and {len(hows) - 3} more' if len(hows) > 3 else ''}"
            for change, hows in list(whys.items())[:6]
        ]
        why = listed(items, len(whys)) if whys else "<p>None of the packages that came or went stands in its lines.</p>\n"
        return f"<h2>What changed since {esc(changes.date)}</h2>\n<p>{told}</p>\n{why}"

    def ways_out(self, short, lines):
        """What would mend the lines, as they are read."""
        ways = [" ".join(map(self.plain, way)) for way in causes.mending(lines)]
        more = [f"and {len(ways) - 4} more like these"] if len(ways) > 4 else []
        return (
            f"<h2>Ways out</h2>\n{listed([*ways[:4], *more, f'or leave {esc(short)} out'])}"
            '<p class="note">One of these may do, or several are needed: read from the lines, not proved.</p>\n'
        )

    def proof(self, text, up):
        if text not in self.proofs:
            return ""
        number, place, size = self.proofs[text]
        unpack = f"gunzip --keep {self.script}\n" if self.script.endswith("gz") else ""
        return (
            f'<h2>Proof</h2>\n<p>Problem {number} of <a href="{up}proof.txt">proof.txt</a>, {size:,} bytes from byte {place:,} on, '
            f'of the script <a href="{up}{self.script}">{self.script}</a>. To check it:</p>\n'
            f'<pre>{unpack}proofcheck proof.t proof.txt | grep "^problem {number} "</pre>\n'
        )

    # --- one cause ---

    def group_pages(self, number):
        found, up = self.found, "../"
        cause, texts = found.groups[number - 1]
        acting = found.at_fault(number)
        parts = [texts[at : at + ON_PAGE] for at in range(0, len(texts), ON_PAGE)]
        place = lambda part: f"group/{number}.html" if part == 1 else f"group/{number}-{part}.html"
        link = lambda other, part: str(other) if other == part else f'<a href="{up}{place(other)}">{other}</a>'
        for part, shown in enumerate(parts, 1):
            body = [f'<h1><span class="kicker">Cause {number}</span> {self.plain(cause)}</h1>\n']
            if part == 1:
                body.append(f'<p class="lead">{counted(len(texts), "package")} of {len(found.asked):,} cannot be installed by this.</p>\n')
                body += [self.who_has_to_act(cause, texts, acting, up), self.example(texts, up)]
            items = "".join(f"<li>{link(other, part)}</li>" for other in range(1, len(parts) + 1))
            more = f'<nav aria-label="Parts of the list"><ol class="crumbs">{items}</ol></nav>\n' if len(parts) > 1 else ""
            first = set(acting) if len(parts) == 1 else set()
            names = self.names(sorted(shown, key=lambda text: (text not in first, text)) if first else shown, up, note=self.new, kind="packages all")
            head = f"{f'Part {part} of ' if more else 'All ' if len(texts) > 1 else ''}{counted(len(texts), 'package')}"
            body.append(f"<h2>{head}</h2>\n{more}{names}{more}")
            self.page(place(part), f"Cause {number}" + (f", part {part}" if part > 1 else ""), "".join(body))

    def who_has_to_act(self, cause, texts, acting, up):
        if not acting:
            return ""
        vendors = collections.Counter(self.vendor(text) or "no vendor named" for text in acting)
        told = ", ".join(f"{esc(vendor)} ({count:,})" for vendor, count in sorted(vendors.items(), key=lambda item: (-item[1], item[0]))[:5])
        others = len(set(texts) - set(acting))
        more = f"; {counted(others, 'other')} of this cause require one of these, directly or through others" if others else ""
        what = (
            f"These need it themselves{more}."
            if cause.startswith("nothing provides")
            else "One of these has to give way."
            if len(acting) > 1
            else "It is said of this package."
        )
        return f"<h2>Who has to act</h2>\n<p>{what} Vendors: {told}.</p>\n{self.names(acting, up, ACTING_ALL)}"

    def example(self, texts, up):
        """The shortest problem of a cause that has more than one line, as a picture and a tree."""
        failing = self.found.failing
        best = min((text for text in texts if len(failing[text]) > 1), key=lambda text: len(failing[text]), default=texts[0])
        graph = self.found.graph(best)
        label = f"Why {self.repositories.short[best]} cannot be installed; the tree below says the same in words"
        return f"<h2>An example: {self.name(best, up)}</h2>\n{self.drawing(graph, label)}{self.tree(graph, up)}"

    # --- what is on the first page, and on pages of their own where it is much ---

    def causes(self, most=None):
        """The table of causes."""
        rows = []
        for number, (_, texts) in list(enumerate(self.found.groups, 1))[:most]:
            new = len(self.changes.fresh.intersection(texts)) if self.changes else 0
            told = f' <span class="new">{new:,} new</span>' if new else ""
            rows.append(
                f'<tr><td class="number">{len(texts):,}<span class="unit"> {"package" if len(texts) == 1 else "packages"}</span>{told}</td>'
                f"<td>{self.cause(number)}</td><td>{self.acting(number)}</td></tr>\n"
            )
        heads = '<th scope="col" class="number">Packages</th><th scope="col">Cause</th><th scope="col">Who has to act</th>'
        return (
            f'<table class="causes"><caption>What most packages that fail have in common, the most frequent first</caption>\n'
            f"<thead><tr>{heads}</tr></thead>\n<tbody>\n{''.join(rows)}</tbody></table>\n"
        )

    def acting(self, number):
        """Who has to act for a cause: packages by their names."""
        by_name = collections.defaultdict(list)
        for text in self.found.at_fault(number):
            package = self.repositories.known.get(text)
            by_name[package.name if package else text, self.vendor(text)].append(text)
        items = []
        for (name, vendor), some in list(by_name.items())[:ACTING]:
            shown = self.name(some[0]) if len(some) == 1 else f'{esc(name)} <span class="note">{len(some):,} packages</span>'
            items.append(shown + (f' <span class="note">{esc(vendor)}</span>' if len(self.vendors) > 1 and vendor else ""))
        return listed(items, len(by_name), "packages")

    def by_change(self):
        """What is newly broken, by the change that stands behind most of it, or else by its cause; and the changes behind each."""
        changes, found = self.changes, self.found
        behind = {text: changes.behind(found.failing[text], self.repositories.short[text]) for text in changes.broke + changes.came_broken}
        counts, sections = collections.Counter(change for of_text in behind.values() for change in of_text), collections.defaultdict(list)
        for text, of_text in behind.items():
            none = (1, "Came and cannot be installed" if text in changes.came_broken else "No change found behind it", found.group_of[text])
            sections[min(((0, change, 0) for change in of_text), key=lambda one: (-counts[one[1]], one), default=none)].append(text)
        return sorted(sections.items(), key=lambda item: (item[0][0], -len(item[1]), item[0])), behind

    def since(self, level, is_short):
        """What is newly broken, what is mended; on the first page with no more than the first of each."""
        changes, found = self.changes, self.found
        said = [
            (len(changes.broke), "could be installed then and cannot now"),
            (len(changes.came_broken), "came and cannot"),
            (len(changes.mended), "can be installed again"),
            (len(changes.went_broken), "that could not are gone"),
        ]
        told = "; ".join(f"{number:,} {words}" for number, words in said if number) or "Nothing broke and nothing was mended"
        body = [f'<p class="lead">{told}. In all {counted(len(changes.came), "package")} came and {len(changes.went):,} went.</p>\n']
        sections, behind = self.by_change()
        if sections:
            body.append(f"<h{level}>Newly broken</h{level}>\n")
        most = NAMES if is_short else None
        for (is_bare, what, number), texts in sections[: CHANGES if is_short else None]:
            texts = sorted(texts, key=lambda text: (len(found.failing[text]), text))
            head = f"{what}: {self.plain(found.groups[number - 1][0])}" if is_bare else esc(what)
            how = "".join(f'<p class="note">{esc(how)}</p>\n' for how in behind[texts[0]].get(what, ())[:1] if " provided " in how)
            note = lambda text: ' <span class="note">came</span>' if not is_bare and text in changes.came_broken else ""
            body.append(
                f'<section class="change"><h{level + 1}>{head} <span class="count">{len(texts):,}</span></h{level + 1}>\n'
                f"{how}{self.names(texts, '', most, note)}</section>\n"
            )
        if changes.mended:
            why = lambda short: "".join(f' <span class="note">{esc(change)}</span>' for change in changes.mending(short)[:1])
            items = [f"{esc(short)}{why(short)}" for short in changes.mended[:most]]
            body.append(f"<h{level}>Mended</h{level}>\n{listed(items, len(changes.mended), 'packages')}")
        if is_short and (len(sections) > CHANGES or len(changes.mended) > NAMES or any(len(texts) > NAMES for _, texts in sections)):
            body.append('<p><a href="since.html">All that changed</a></p>\n')
        return "".join(body)

    def tiles(self):
        found, changes = self.found, self.changes
        tile = lambda number, words, kind="": f'<li class="{kind}"><strong>{number:,}</strong> {words}</li>'
        before = f"; {len(changes.lines):,} before" if changes else ""
        tiles = [
            tile(len(found.failing), f"of {len(found.asked):,} cannot be installed{before}", "bad" if found.failing else "good"),
            tile(len(found.groups), "cause" if len(found.groups) == 1 else "causes"),
        ]
        if changes:
            tiles += [
                tile(len(changes.fresh), "newly broken", "bad" if changes.fresh else ""),
                tile(len(changes.mended), "mended", "good" if changes.mended else ""),
            ]
        if found.spent:
            tiles.append(tile(len(found.spent), "not known", "bad"))
        return f'<ul class="tiles">{"".join(tiles)}</ul>\n'

    def index(self):
        found = self.found
        body = [f'<h1>{esc(self.title)}</h1>\n<p class="lead">{TITLE}, {esc(self.date)}</p>\n{self.tiles()}{pages.SEARCH}']
        if self.changes:
            body.append(f'<h2 id="since">Since {esc(self.changes.date)}</h2>\n{self.since(3, True)}')
        if found.groups:
            body.append(f'<h2 id="causes">Causes</h2>\n{self.causes(CAUSES)}')
            if rest := found.groups[CAUSES:]:
                count = sum(len(texts) for _, texts in rest)
                body.append(f'<p>{len(rest):,} more causes, of {counted(count, "package")}: <a href="causes.html">all causes</a>.</p>\n')
        else:
            body.append("<p>All packages that were asked for can be installed.</p>\n")
        if found.spent:
            body.append(f"<h2>Not known</h2>\n<p>Over these the budget was spent.</p>\n{self.names(found.spent)}")
        body.append(self.meaning())
        self.page("index.html", TITLE, "".join(body))

    def meaning(self):
        """What was asked, of which repositories, and what is proved."""
        found = self.found
        asked = len(found.given.repos)
        others = sum((archs for *_, archs in self.repositories.sources[:asked]), collections.Counter())
        left_out = [f"{number:,} of {esc(arch)}" for arch, number in sorted(others.items()) if arch not in rounds.ALLOWED[found.given.arch]]
        only = f" Asked for were the names {esc(', '.join(found.given.only))} alone." if found.given.only else ""
        beside = f" Those of {esc(', '.join(found.names[asked:]))} are there to be required, and were not asked for." if found.names[asked:] else ""
        left = f" Left out, as of another architecture: {', '.join(left_out)}." if left_out else ""
        proofs = (
            f'<p>Each failing package has a <a href="proof.txt">proof</a>, of the script <a href="{self.script}">{self.script}</a>. '
            f"proofcheck has said yes to all {len(self.proofs):,}. It needs no solver and no network.</p>\n"
            if self.proofs
            else ""
        )
        return (
            '<h2 id="meaning">What was asked, and what is proved</h2>\n<p>For each package: is there a set of packages that has it '
            f"and meets all rules, with nothing installed before?{only}{beside}{left}</p>\n{self.sources()}{proofs}"
            "<p>That a package fails is proved. That the others can be installed is proved of the sets that testsolv found. "
            "Causes, ways out, and what changed are put together by the tool, and not proved.</p>\n"
            f'<p><a href="list.txt">list.txt</a> has all packages that were asked for, <a href="{pages.STATE}">{pages.STATE}</a> '
            'what the next run compares with.</p>\n<script src="search.js" defer></script>\n'
        )

    # --- what other programs read ---

    def lists(self):
        found = self.found
        rows = sorted((text, f"cause {found.group_of[text]}" if text in found.group_of else "", self.page_of.get(text, "")) for text in found.asked)
        self.search_list(rows, ["cannot be installed", "can be installed"])
        state, short = self.repositories.state("installable", self.date), self.repositories.short
        state["asked"] = {short[text]: found.group_of.get(text, -1 if text in found.spent else 0) for text in found.asked}
        state["first"] = self.first
        self.write_state({**state, **kept_lines({short[text]: lines for text, lines in found.failing.items()}, self.repositories.shorten)})

    def take_proofs(self, proof):
        """Copies the proofs and their script, and notes where each stands."""
        shutil.copyfile(proof, self.folder / "proof.txt")
        with open(proof, "rb") as file:
            text = file.read()
        starts = [(match.start(), int(match[1])) for match in re.finditer(rb"^problem (\d+) ", text, re.MULTILINE)]
        places = {}
        for (start, number), (end, _) in zip(starts, starts[1:] + [(len(text), 0)]):
            places.setdefault(number, (number, start, end - start))
        self.proofs = {one: places[number] for number, one in enumerate(self.found.failing, 1)}
        self.script = "proof.t" if os.path.getsize(f"{proof}.t") <= PACK else "proof.t.gz"
        with open(f"{proof}.t", "rb") as plain, open(self.folder / self.script, "wb") as file:
            with gzip.GzipFile("", "wb", 6, file, mtime=0) if self.script.endswith("gz") else file as packed:
                shutil.copyfileobj(plain, packed)

    def all(self):
        found, progress = self.found, testtags.Progress("pages are written")
        self.index()
        self.lists()
        if self.changes:
            date = esc(self.changes.date)
            self.page("since.html", f"Since {self.changes.date}", f"<h1>Since {date}</h1>\n{self.since(2, False)}")
        if len(found.groups) > CAUSES:
            self.page("causes.html", "All causes", f"<h1>All {len(found.groups):,} causes</h1>\n{self.causes()}")
        for number in range(1, len(found.groups) + 1):
            self.group_pages(number)
            progress.step()
        for text in found.failing:
            self.package_page(text)
            progress.step()
        progress.end()


def write(given, found, state):
    """Writes the folder of a run."""
    changes = Changes(state, given.since, found) if state else None
    with pages.replaced(given.html) as folder:
        site = InstallablePages(folder, found, changes, pages.date_of(given, given.repos + given.beside))
        if given.proof and found.failing:
            site.take_proofs(given.proof)
        site.all()
