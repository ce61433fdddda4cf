#!/usr/bin/env python3
"""Tries the pages of installable.py: whole folders, foreign texts, what changed since an earlier run, and all of it in a browser.

    tools/tests/test_installable_pages.py [TESTSOLV PROOFCHECK]

Without the words it takes the programs where `rt run` builds them. What is seen in a browser is tried where there is Chromium.
"""
import argparse
import gzip
import os
import pathlib
import re
import shutil
import subprocess
import sys
import tempfile
import urllib.parse

from places import COMPOSE, TOOLS

import browser
import installable
import installable_pages
import rounds
from pages_for_tests import NO_PICTURES, TOLD, bytes_of, faults_of, found, look_at, walk
from rounds import PROOFCHECK, TESTSOLV
from rpms_for_tests import same


# names, vendors and dependencies that would be elements, other files or other addresses if they were not escaped
LONG = "long" * 72
NAMES = [
    "<script>alert(1)</script>",
    "../../../evil",
    "%41",
    "a%2fb",
    LONG,
    LONG[:-1] + "x",
    "Case",
    "case",
    "quote\"'",
    "back\\slash",
    "turned\u202eover",
    "</title><b>",
    "amp&amp;",
    "{up}",
    "@at",
    "-dash",
    "\udc80bytes",
]
HOSTILE = (
    "".join(
        f"=Pkg: {name} 1 1 noarch\n=Vnd: <script>alert('vendor')</script> {number}\n=Req: <img/src=x>{number % 3}\n"
        for number, name in enumerate(NAMES)
    )
    + "=Pkg: <good> 1 1 noarch\n"
)

# yesterday a library was there, and sendmail was older and conflicted with nothing
GONE = "=Pkg: compat-openssl11 1:1.1.1q 3.fc39 x86_64\n=Prv: libssl.so.1.1()(64bit)\n"
OLDER = "=Pkg: sendmail 8.17.1 9.fc39 x86_64\n=Vnd: Fedora Project\n=Prv: server(smtp)\n"
# (what each of the three that fail is told about)
BROKE = {
    "compat-openssl11-1:1.1.1q-3.fc39.x86_64 went": ["stunnel-5.71-1.fc39.x86_64", "mail-tunnel-1.2-3.fc39.noarch"],
    "sendmail-8.17.1-9.fc39.x86_64 became sendmail-8.17.2-2.fc39.x86_64": ["mail-tests-0.9-1.fc39.noarch"],
}


def run(programs, *words, **more):
    command = [sys.executable, TOOLS / "installable.py", "--program", programs[0], "--checker", programs[1], *words]
    done = subprocess.run(command, capture_output=True, text=True, errors="surrogateescape", **more)
    return done.returncode, done.stdout, done.stderr


def counts_of(text):
    """The numbers that installable.py prints: how many fail of how many, and the causes with how many each has."""
    failing, asked = map(int, re.match(r"(\d+) of (\d+) packages", text).groups())
    return failing, asked, [(int(count), cause) for count, cause in re.findall(r"^(\d+) by this: (.*)$", text, re.MULTILINE)]


def without_repo(text):
    return re.sub(r"@[\w.-]+", "", text)


def number(text):
    return int(text.replace(",", ""))


def try_folder(programs, folder):
    """The same bytes of the same input, links that lead somewhere, and the numbers of the text."""
    words = [COMPOSE, "--html", folder / "pages"]
    status, told, errors = run(programs, *words, "--proof", folder / "compose.proof")
    same("status and errors", (status, errors), (1, TOLD))
    same("the last line", told.splitlines()[-1], f"pages in {folder}/pages/index.html")
    first = bytes_of(folder / "pages")
    same("faults of the pages", faults_of(folder / "pages"), [])
    same(
        "files",
        sorted(first),
        sorted(
            [
                "index.html",
                "group/1.html",
                "group/2.html",
                "list.txt",
                "list.js",
                "search.js",
                "style.css",
                "state.json.gz",
                "proof.txt",
                "proof.t",
                "package/st/stunnel-5.71-1.fc39.x86_64.html",
                "package/ma/mail-tunnel-1.2-3.fc39.noarch.html",
                "package/ma/mail-tests-0.9-1.fc39.noarch.html",
            ]
        ),
    )
    same("proofs", (first["proof.txt"], first["proof.t"]), ((folder / "compose.proof").read_bytes(), (folder / "compose.proof.t").read_bytes()))
    page = first["package/ma/mail-tests-0.9-1.fc39.noarch.html"].decode()
    place, size = map(number, re.search(r"Problem 3 of <a .*?</a>, ([\d,]+) bytes from byte ([\d,]+) on", page).groups()[::-1])
    same("the place of a proof", first["proof.txt"][place : place + size].split(b"\n")[0], b"problem 3 1")
    for jobs in ("1", "3"):
        run(programs, *words, "--proof", folder / "compose.proof", "--jobs", jobs)
        same(f"the same bytes by {jobs} processes, in the place of the earlier ones", bytes_of(folder / "pages") == first, True)
    errors = run(programs, *words, env={"PATH": str(folder)})[2]
    same(
        "without Graphviz",
        (errors, faults_of(folder / "pages"), b"<svg" in (folder / "pages" / "group" / "1.html").read_bytes()),
        (NO_PICTURES, [], False),
    )
    status, told, _ = run(programs, COMPOSE, "--only", "bash", "nginx", "--html", folder / "pages")
    same("all is well", (status, told.splitlines()[0], faults_of(folder / "pages")), (0, "0 of 2 packages cannot be installed", []))
    same("old pages are gone", (folder / "pages" / "group").exists(), False)


def try_foreign(programs, folder):
    """Foreign texts are neither elements nor files of other folders."""
    path = folder / "foreign.repo"
    path.write_bytes(HOSTILE.encode("utf-8", "surrogateescape"))
    status, told, errors = run(programs, path, "--html", folder / "foreign", "--title", "<script>title</script>")
    same("foreign texts, status and errors", (status, errors), (1, TOLD))
    same("foreign texts, faults", faults_of(folder / "foreign"), [])
    same("foreign texts, pages", (len(list((folder / "foreign" / "package").rglob("*.html"))), counts_of(told)[0]), (len(NAMES), len(NAMES)))
    lower = [str(path).lower() for path in (folder / "foreign").rglob("*.html")]
    same("no two files differ in case only", len(set(lower)), len(lower))
    same("files outside", sorted(one.name for one in folder.iterdir() if "evil" in one.name), [])
    same("names of files are short", max(len(path.name) for path in (folder / "foreign").rglob("*")) < 256, True)
    text = "".join(path.read_text() for path in (folder / "foreign").rglob("*.html"))
    same("the vendor is there as a text", "&lt;script&gt;alert(&#x27;vendor&#x27;)&lt;/script&gt; 0" in text, True)
    same("marks that turn the text are shown", ("\u202e" in text, "turned\\x202eover" in text), (False, True))
    again = bytes_of(folder / "foreign")
    run(programs, path, "--html", folder / "foreign", "--title", "<script>title</script>", "--jobs", "1")
    same("foreign texts, the same bytes", bytes_of(folder / "foreign") == again, True)


def sections(page):
    """What is told of changes on a page: each heading with the packages below it."""
    found = re.findall(r'<section class="change"><h\d>(.*?) <span class="count">([\d,]+)</span>.*?<ul class="packages">(.*?)</ul>', page, re.DOTALL)
    lists = {head: re.findall(r"<a [^>]*>(.*?)</a>", names) for head, _, names in found}
    same("counts of changes", [number(count) for _, count, _ in found], [len(names) for names in lists.values()])
    return lists


def try_since(programs, folder):
    """What broke and what is mended is told by the change that did it."""
    today, path = COMPOSE.read_text(), folder / "compose.repo"
    parts = re.split(r"(?=^=Pkg: )", today, flags=re.MULTILINE)
    yesterday = "".join(OLDER if part.startswith("=Pkg: sendmail ") else part for part in parts) + GONE
    place, then = folder / "since", "2026-11-30"
    path.write_text(yesterday)
    same(
        "yesterday all is well",
        run(programs, path, "--html", place, "--since", place, "--date", then)[::2],
        (0, f"{TOLD}{place}: there are no pages of an earlier run yet, so nothing is compared\n"),
    )
    path.write_text(today)
    run(programs, path, "--html", place, "--since", place, "--date", "2026-12-01")
    page = (place / "index.html").read_text()
    same("what broke", sections(page), BROKE)
    same("what broke, on its own page", sections((place / "since.html").read_text()), BROKE)
    same(
        "tiles",
        re.findall(r"<strong>(\d+)</strong> ([^<]*)</li>", page),
        [("3", "of 11 cannot be installed; 0 before"), ("2", "causes"), ("3", "newly broken"), ("0", "mended")],
    )
    same("how many came and went", "3 could be installed then and cannot now. In all 1 package came and 2 went." in page, True)
    same(
        "why, on the page of a package",
        "compat-openssl11-1:1.1.1q-3.fc39.x86_64 provided libssl.so.1.1()(64bit)"
        in (place / "package/st/stunnel-5.71-1.fc39.x86_64.html").read_text(),
        True,
    )
    same("faults of pages since yesterday", faults_of(place), [])
    run(programs, path, "--html", place, "--since", place, "--date", "2026-12-02")
    page = (place / "package/st/stunnel-5.71-1.fc39.x86_64.html").read_text()
    same("since when it fails", "It cannot be installed, at least since 2026-12-01." in page, True)
    same("nothing changed", "Nothing broke and nothing was mended. In all 0 packages came and 0 went." in (place / "index.html").read_text(), True)
    path.write_text(yesterday)
    run(programs, path, "--html", place, "--since", place, "--date", "2026-12-03")
    mended = re.search(r"<h3>Mended</h3>\n<ul class=\"packages\">(.*?)</ul>", (place / "index.html").read_text(), re.DOTALL)[1]
    same(
        "what is mended, and by which change",
        re.findall(r'<li>(.*?) <span class="note">(.*?)</span>', mended),
        [
            ("mail-tests-0.9-1.fc39.noarch", "sendmail-8.17.2-2.fc39.x86_64 became sendmail-8.17.1-9.fc39.x86_64"),
            ("mail-tunnel-1.2-3.fc39.noarch", "compat-openssl11-1:1.1.1q-3.fc39.x86_64 came"),
            ("stunnel-5.71-1.fc39.x86_64", "compat-openssl11-1:1.1.1q-3.fc39.x86_64 came"),
        ],
    )
    path.write_text(today + "=Pkg: late 1 1 noarch\n=Req: nobody\n")
    run(programs, path, "--html", place, "--since", place, "--date", "2026-12-04")
    same(
        "what came and fails",
        sections((place / "index.html").read_text()).get("Came and cannot be installed: nothing provides nobody"),
        ["late-1-1.noarch"],
    )


def try_spent(programs, folder):
    """What is not known, since the budget was spent, is told, and is neither broken nor mended the next time."""
    place, package = folder / "spent", "stunnel-5.71-1.fc39.x86_64@compose"
    given = argparse.Namespace(
        repos=[COMPOSE], beside=[], only=[], arch="x86_64", program=programs[0], html=place, since=None, title=None, date="2026-12-01", proof=None
    )
    asked = installable.asked_for(given, ["compose"])
    found = installable_pages.Found(given, folder, rounds.head([COMPOSE], ["compose"], "x86_64"), [COMPOSE], ["compose"], asked, {}, [package])
    installable_pages.write(given, found, None)
    page = (place / "index.html").read_text()
    same("not known", ("<strong>1</strong> not known" in page, "<li>stunnel-5.71-1.fc39.x86_64</li>" in page, faults_of(place)), (True, True, []))
    run(programs, COMPOSE, "--html", place, "--since", place, "--date", "2026-12-02")
    same(
        "what was not known broke not",
        [names for names in sections((place / "index.html").read_text()).values() if package.split("@")[0] in names],
        [],
    )


def try_faults(programs, folder):
    """What is found before anything is asked: no program is there."""
    none, other = ["nosuch", "nosuch"], folder / "other"
    other.mkdir()
    (other / "mine.txt").write_text("of somebody else")
    for words, fault in (
        (["--html", other], f"{other}: it is there, and has no state.json.gz of an earlier run: name another folder"),
        (["--html", folder / "no" / "such"], f"{folder}/no/such: it cannot be written, since its folder is not there, or may not be written"),
        (["--html", COMPOSE], f"{COMPOSE}: it is no folder"),
        (["--since", other], "--since wants --html FOLDER, where what changed is told"),
        (["--html", folder / "new", "--since", other], f"{other}: it has no state.json.gz of an earlier run"),
        (
            ["--html", folder / "new", "--proof", folder / "new" / "proof"],
            f"{folder}/new/proof: it cannot be written, since its folder is not there, or may not be written",
        ),
    ):
        same(f"a fault, {words}", (*run(none, COMPOSE, *words)[:2], run(none, COMPOSE, *words)[2].splitlines()[-1]), (2, "", fault))
    for text, fault in (
        ("{", "it is no state of an earlier run: Expecting property name enclosed in double quotes: line 1 column 2 (char 1)"),
        ("[]", "it is no state of an earlier run: list indices must be integers or slices, not str"),
        ('{"format":1,"tool":"upgrade"}', "it is of another tool or format: run once without --since"),
    ):
        (other / "state.json.gz").write_bytes(gzip.compress(text.encode()))
        same(
            f"a wrong state, {text}",
            run(none, COMPOSE, "--html", folder / "new", "--since", other)[::2],
            (2, f"{TOLD}{other}/state.json.gz: {fault}\n"),
        )
    (other / "state.json.gz").write_bytes(b"no file that is packed")
    same(
        "a state that is not packed",
        run(none, COMPOSE, "--html", folder / "new", "--since", other)[::2],
        (2, f"{TOLD}{other}/state.json.gz: it is no state of an earlier run: Not a gzipped file (b'no')\n"),
    )
    (other / "state.json.gz").write_bytes(gzip.compress(b'{"format":1,"tool":"installable","date":"","packages":{},"providers":{}}'))
    same(
        "a state with a part missing",
        run(programs, COMPOSE, "--html", folder / "new", "--since", other)[2],
        f"{TOLD}{other}/state.json.gz: it is no state of an earlier run: 'failing'\n",
    )
    same("what is of somebody else is there", ((other / "mine.txt").read_text(), (folder / "new").exists()), ("of somebody else", False))


def try_size(programs, folder):
    """As many failing packages as a distribution with contradictions has: the folder and its first page stay small."""
    path, count = folder / "many.repo", 14_048
    path.write_text(
        "".join(
            f"=Pkg: package-number-{n} 1.{n % 7} 1.fc39 noarch\n=Vnd: Vendor {n % 5}\n=Req: library-{n % 300}.so()(64bit)\n"
            + (f"=Req: package-number-{n - 300}\n" if n >= 300 else "")
            for n in range(count)
        )
    )
    status, told, errors = run(programs, path, "--html", folder / "many")
    same("many packages", (status, counts_of(told)[:2], errors), (1, (count, count), TOLD))
    files = bytes_of(folder / "many")
    same("a page for each", sum(name.startswith("package/") for name in files), count)
    same("the first page", len(files["index.html"]) < 500_000, True)
    # (a block of a disk has 4096 bytes)
    same("the folder", sum(-(-len(data) // 4096) * 4096 for data in files.values()) < 100_000_000, True)
    same("faults of many pages", faults_of(folder / "many", every=50), [])


def path_of(url):
    return urllib.parse.unquote(url.removeprefix("file://"))


def try_browser(programs, folder):
    """The numbers of the text are those of the pages; the search, the keys, both widths, and a browser without JavaScript."""
    told = run(programs, COMPOSE, "--html", folder / "seen")[1]
    failing, asked, causes = counts_of(told)
    place = folder / "seen"
    pages = [str(path.relative_to(place)) for path in sorted(place.rglob("*.html"))]
    with tempfile.TemporaryDirectory() as profile, browser.Browser(profile) as one:
        look_at(one, place, pages)
        one.open(place / "index.html")
        same(
            "numbers of the first page",
            one.value('[...document.querySelectorAll(".tiles li")].map((tile) => tile.innerText.replace("\\n", " "))'),
            [f"{failing} of {asked} cannot be installed", f"{len(causes)} causes"],
        )
        rows = one.value('[...document.querySelectorAll(".causes tbody tr")].map((row) => [...row.cells].slice(0, 2).map((cell) => cell.innerText))')
        same(
            "causes of the first page",
            [(number(count.split()[0]), cause) for count, cause in rows],
            [(count, without_repo(cause)) for count, cause in causes],
        )
        for place_of, (count, _) in enumerate(causes, 1):
            one.open(place / f"group/{place_of}.html")
            same(f"packages of cause {place_of}", one.value('document.querySelectorAll(".packages.all li").length'), count)
            if shutil.which("dot"):
                same(f"a picture of cause {place_of}", one.value('document.querySelectorAll(".drawing svg[role=img]").length'), 1)
        one.open(place / "index.html")
        told, rows = found(one, "mail")
        same(
            "the search",
            (told, [text for text, _ in rows]),
            (
                "3 found, 2 of them cannot be installed",
                [
                    "mail-tests-0.9-1.fc39.noarch@compose cause 2",
                    "mail-tunnel-1.2-3.fc39.noarch@compose cause 1",
                    "sendmail-8.17.2-2.fc39.x86_64@compose can be installed",
                ],
            ),
        )
        one.follow('document.querySelector("#found a").click()')
        same("what the search leads to", one.value('document.querySelector("h1").innerText'), "mail-tests 0.9-1.fc39.noarch")
        one.open(place / "index.html")
        links = one.value('[...document.querySelectorAll("a[href], input, [tabindex]")].map((one) => [one.tagName, one.getAttribute("href")])')
        reached = walk(one, len(links))
        same("the key Tab reaches all", [where[:2] for where in reached], links)
        same("the focus is seen", [where for where in reached if not where[2]], [])
        one.scripts(False)
        one.open(place / "index.html")
        one.scripts(True)
        same(
            "without JavaScript",
            one.value('[document.querySelector(".search").hidden, document.querySelectorAll(".causes tbody tr").length]'),
            [True, len(causes)],
        )
        run(programs, folder / "foreign.repo", "--html", folder / "foreign")
        look_at(
            one,
            folder / "foreign",
            [
                "index.html",
                "group/1.html",
                *(str(path.relative_to(folder / "foreign")) for path in sorted((folder / "foreign").glob("package/*/*.html"))[:4]),
            ],
        )
        one.open(folder / "foreign" / "index.html")
        for text, wanted in (
            ("<script>", "<script>alert(1)</script>-1-1.noarch@foreign cause "),
            ("%41", "%41-1-1.noarch@foreign cause "),
            ("<good>", "<good>-1-1.noarch@foreign can be installed"),
        ):
            told, rows = found(one, text)
            same(f"the search finds {text}", (len(rows), rows[0][0].startswith(wanted)), (1, True))
            if rows[0][1]:
                one.open(path_of(rows[0][1]))
                same(f"its page opens, {text}", one.value('document.querySelector("h1").innerText').startswith(text), True)
                one.open(folder / "foreign" / "index.html")
        same("scripts of the page", one.value('[...document.scripts].map((script) => script.getAttribute("src"))'), ["list.js", "search.js"])
        if (folder / "many").exists():
            one.open(folder / "many" / "index.html")
            told, rows = found(one, "number-14047")
            same("the search of many", (told, len(rows)), ("1 found, 1 of them cannot be installed", 1))
            look_at(one, folder / "many", ["index.html", "group/1.html"])


def main():
    programs = [pathlib.Path(word).resolve() for word in sys.argv[1:]] or [TESTSOLV, PROOFCHECK]
    for program in programs:
        if not program.is_file():
            print(f"skipped: there is no program {program}")
            return
    os.environ.pop("SOURCE_DATE_EPOCH", None)
    with tempfile.TemporaryDirectory() as name:
        folder = pathlib.Path(name)
        try_folder(programs, folder)
        try_foreign(programs, folder)
        try_since(programs, folder)
        try_spent(programs, folder)
        try_faults(programs, folder)
        try_size(programs, folder)
        if TOLD:
            print("skipped: pictures, since there is no program dot")
        if browser.program():
            try_browser(programs, folder)
        else:
            print("skipped: there is no Chromium (Debian: chromium)")
    print("as it should be")


if __name__ == "__main__":
    main()
