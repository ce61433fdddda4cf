"""The pages that upgrade.py writes: which sets of packages go through the upgrade, what changes, and why others do not go through."""
import collections

import pages
import picture
import rounds
import testtags
from pages import counted, esc, folded, listed
from since import Since, kept_lines

SYSTEM = "system"
TITLE = "Does the upgrade go through?"
# so many lines of one kind stand open on the page of a set
MOST = 40
KINDS = {
    "upgrade": "is upgraded",
    "downgrade": "goes back to a lower version",
    "change": "changes",
    "reinstall": "is installed anew",
    "install": "is new",
    "erase": "goes",
    "obsolete": "goes",
}


class Changes(Since):
    """Which sets no longer go through, and which do again."""

    def __init__(self, state, place, repositories, outcomes):
        super().__init__(state, place, repositories)
        try:
            then = state["sets"]
        except KeyError as error:
            raise testtags.Fault(f"{place / pages.STATE}: it is no state of an earlier run: {error}")
        self.broke = [number for number, outcome in outcomes.items() if not outcome.upgrade and then.get(outcome.words) is True]
        self.came_broken = [number for number, outcome in outcomes.items() if not outcome.upgrade and outcome.words not in then]
        self.mended = [number for number, outcome in outcomes.items() if outcome.upgrade and then.get(outcome.words) is False]
        self.failing_then = list(then.values()).count(False)


def lines_of(outcome):
    """The lines of all problems of a set."""
    return list(dict.fromkeys(line for problem in outcome.problems.values() for line in problem.info))


class UpgradePages(pages.Pages):
    """The files of a folder that tell of upgrades."""

    def __init__(self, folder, given, repositories, outcomes, changes, date):
        title = given.title or f"{given.old.name.removesuffix('.repo')} to {' and '.join(path.name.removesuffix('.repo') for path in given.new)}"
        super().__init__(folder, repositories, title, date, {})
        self.given, self.outcomes, self.changes = given, outcomes, changes

    def set_name(self, number, up=""):
        return f'<a href="{up}set/{number}.html">{esc(self.outcomes[number].words)}</a>'

    def told(self, outcome):
        return "it goes through" if outcome.upgrade else outcome.what

    # --- one set ---

    def set_page(self, number):
        outcome = self.outcomes[number]
        installed = f"{counted(len(outcome.installed), 'package')} installed. " if outcome.installed else ""
        told = self.told(outcome)
        body = [
            f'<h1><span class="kicker">Set {number}</span> {esc(outcome.words)}</h1>\n',
            f'<p class="lead">{installed}{esc(told[0].upper() + told[1:])}.</p>\n',
            self.changed(number),
        ]
        if outcome.upgrade:
            body.append(self.upgrade(outcome.upgrade))
        body += [self.problem(outcome, place, problem) for place, problem in outcome.problems.items()]
        self.page(f"set/{number}.html", f"Set {number}", "".join(body))

    def changed(self, number):
        """What changed for a set that no longer goes through."""
        if not self.changes or number not in self.changes.broke:
            return ""
        return f"<h2>What changed since {esc(self.changes.date)}</h2>\n<p>It went through then.</p>\n{self.behind(number)}"

    def behind(self, number):
        whys = self.changes.behind(lines_of(self.outcomes[number]))
        items = [
            f"<strong>{esc(change)}</strong>: {esc('; '.join(hows[:3]))}{f' and {len(hows) - 3} more' if len(hows) > 3 else ''}"
            for change, hows in list(whys.items())[:6]
        ]
        return listed(items, len(whys)) if whys else "<p>None of the packages that came or went stands in its lines.</p>\n"

    def upgrade(self, upgrade):
        """What an upgrade that goes through changes."""
        body = [self.tiles(zip(upgrade.counts(), ("upgraded", "new", "gone", "as they are")))]
        for what, lines in sorted(upgrade.told.items()):
            head = f'<h2>{esc(what[0].upper() + what[1:])} <span class="count">{len(lines):,}</span></h2>\n'
            body.append(head + self.some([self.plain(line) for line in lines]))
        changes = folded("changes", [*map(esc, upgrade.lines)], "lines", most=0) if upgrade.lines else "<p>None.</p>\n"
        return "".join(body) + f"<h2>All changes</h2>\n{changes}"

    def some(self, items):
        """A list, of which what is much is folded."""
        more = items[MOST:]
        return listed(items[:MOST], kind="packages") + (folded("more", more, "packages", most=0) if more else "")

    def problem(self, outcome, place, problem):
        graph = pages.Graph(picture.Picture(problem, outcome.names, outcome.met, pages.MEETING))
        drawing = self.drawing(graph, f"Problem {place}; the tree below says the same in words")
        ways = [
            f"way out {number}: " + (self.plain(lines[0]) if len(lines) == 1 else folded("changes", [*map(self.plain, lines)]))
            for number, lines in problem.solutions.items()
        ]
        return (
            f'<h2 id="problem-{place}">Problem {place}</h2>\n{drawing}{self.tree(graph, "../")}<h3>Ways out</h3>\n{listed(ways)}'
            '<p class="note">Each of them has a set that meets all else: proved.</p>\n'
            f"<h3>The lines of the problem</h3>\n{self.lines(problem.info)}"
        )

    # --- the first page ---

    def tiles(self, numbers, kinds=()):
        tiles = "".join(
            f'<li class="{kinds[place] if place < len(kinds) else ""}"><strong>{number:,}</strong> {words}</li>'
            for place, (number, words) in enumerate(numbers)
        )
        return f'<ul class="tiles">{tiles}</ul>\n'

    def index(self):
        failing = [number for number, outcome in self.outcomes.items() if not outcome.upgrade]
        before = f"; {self.changes.failing_then:,} before" if self.changes else ""
        tiles = [(len(failing), f"of {counted(len(self.outcomes), 'set')} {'does' if len(failing) == 1 else 'do'} not go through{before}")]
        kinds = ["bad" if failing else "good"]
        if self.changes:
            fresh = len(self.changes.broke) + len(self.changes.came_broken)
            tiles += [(fresh, "newly broken"), (len(self.changes.mended), "mended")]
            kinds += ["bad" if fresh else "", "good" if self.changes.mended else ""]
        body = [
            f'<h1>{esc(self.title)}</h1>\n<p class="lead">{TITLE} {esc(self.date)}</p>\n{self.tiles(tiles, kinds)}{pages.SEARCH}',
            self.since(),
            f'<h2 id="sets">Sets</h2>\n{self.sets()}',
            self.meaning(),
        ]
        self.page("index.html", TITLE, "".join(body))

    def since(self):
        if not self.changes:
            return ""
        changes = self.changes
        told = (
            "; ".join(
                f"{len(some):,} {words}"
                for some, words in (
                    (changes.broke, "went through then and do not now"),
                    (changes.came_broken, "were not tried then and do not"),
                    (changes.mended, "go through again"),
                )
                if some
            )
            or "Nothing broke and nothing was mended"
        )
        body = [
            f'<h2 id="since">Since {esc(changes.date)}</h2>\n<p class="lead">{told}. In all {counted(len(changes.came), "package")} came '
            f"and {len(changes.went):,} went.</p>\n"
        ]
        if changes.broke or changes.came_broken:
            body.append("<h3>Newly broken</h3>\n")
        for number in changes.broke + changes.came_broken:
            body.append(f'<section class="change"><h4>{self.set_name(number)}</h4>\n{self.behind(number)}</section>\n')
        if changes.mended:
            why = lambda number: "".join(f' <span class="note">{esc(change)}</span>' for change in changes.mending(self.outcomes[number].words)[:1])
            body.append(f"<h3>Mended</h3>\n{listed([self.set_name(number) + why(number) for number in changes.mended], kind='packages')}")
        return "".join(body)

    def sets(self):
        """The table of sets: those that do not go through first."""
        rows = []
        for number, outcome in sorted(self.outcomes.items(), key=lambda item: item[1].upgrade is not None):
            counts = outcome.upgrade.counts() if outcome.upgrade else [""] * 4
            cells = "".join(
                f'<td class="number">{count:,}<span class="unit"> {words}</span></td>' if count != "" else "<td></td>"
                for count, words in zip(counts, ("upgraded", "new", "gone", "as they are"))
            )
            told = esc(self.told(outcome))
            notable = [f"{esc(what)}: {len(lines):,}" for what, lines in sorted(outcome.upgrade.told.items())] if outcome.upgrade else []
            mark = told if outcome.upgrade else f'<strong class="bad">{told}</strong>'
            rows.append(f'<tr><td>{self.set_name(number)}</td><td>{mark}{listed(notable, kind="packages") if notable else ""}</td>{cells}</tr>\n')
        heads = "".join(
            f'<th scope="col"{kind}>{word}</th>'
            for word, kind in (
                ("Set", ""),
                ("What becomes of it", ""),
                *((word, ' class="number"') for word in ("Upgraded", "New", "Gone", "As they are")),
            )
        )
        return (
            '<table class="sets"><caption>Those that do not go through first</caption>\n'
            f"<thead><tr>{heads}</tr></thead>\n<tbody>\n{''.join(rows)}</tbody></table>\n"
        )

    def meaning(self):
        jobs = "".join(f" <code>{esc(job)}</code>" for job in self.given.jobs)
        besides = f" Further jobs:{jobs}." if jobs else ""
        return (
            '<h2 id="meaning">What was asked, and what is proved</h2>\n<p>Each set is what is installed from the old release for its words. '
            f"Of each a distribution upgrade to the packages of the new release was asked for.{besides}</p>\n{self.sources()}"
            "<p>That a set does not go through is proved, and so are its ways out. That another goes through is proved of the set that testsolv "
            "found, and its changes are those of this set. Counts, and what changed since an earlier run, are put together by the tool, and not "
            'proved.</p>\n<p><a href="list.txt">list.txt</a> has all packages that change or stand in a problem, '
            f'<a href="{pages.STATE}">{pages.STATE}</a> what the next run compares with.</p>\n<script src="search.js" defer></script>\n'
        )

    # --- what other programs read ---

    def lists(self):
        rows = []
        for number, outcome in self.outcomes.items():
            said = collections.defaultdict(str)
            for line in lines_of(outcome):
                said.update({word: "in a problem" for word in line.replace(",", "").split() if word in self.repositories.known})
            for line in outcome.upgrade.lines if outcome.upgrade else ():
                kind, package, *_ = line.split()
                said[package] = KINDS[kind]
            rows += [(text, f"set {number}: {words}", f"set/{number}.html") for text, words in said.items()]
        self.search_list(sorted(rows), ["with a change or a problem", ""])
        failing = {outcome.words: lines_of(outcome) for outcome in self.outcomes.values() if not outcome.upgrade}
        sets = {outcome.words: bool(outcome.upgrade) for outcome in self.outcomes.values()}
        self.write_state({**self.repositories.state("upgrade", self.date), "sets": sets, **kept_lines(failing, self.repositories.shorten)})

    def all(self):
        self.index()
        self.lists()
        for number in self.outcomes:
            self.set_page(number)


def write(given, outcomes, news, state):
    """Writes the folder of a run."""
    olds = [given.old, *given.beside]
    repositories = pages.Repositories([*olds, *news.values()], [*rounds.repo_names(olds), *news])
    for outcome in outcomes:
        for package, _ in outcome.installed:
            text = rounds.package_text(package, SYSTEM)
            repositories.known[text], repositories.short[text] = package, text.removesuffix(f"@{SYSTEM}")
    numbered = dict(enumerate(outcomes, 1))
    changes = Changes(state, given.since, repositories, numbered) if state else None
    with pages.replaced(given.html) as folder:
        UpgradePages(folder, given, repositories, numbered, changes, pages.date_of(given, [*olds, *given.new])).all()
