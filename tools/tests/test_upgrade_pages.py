#!/usr/bin/env python3
"""Tries the pages of upgrade.py on the small repositories of docs/maintainers/, and in a browser.

    tools/tests/test_upgrade_pages.py [TESTSOLV]

Without the word it takes the program where `rt run` builds it. What is seen in a browser is tried where there is Chromium.
"""
import os
import pathlib
import re
import shutil
import subprocess
import sys
import tempfile

from places import COMPOSE as OLD, NEXT as NEW, TOOLS

import browser
from pages_for_tests import TOLD, bytes_of, faults_of, found, look_at
from rounds import TESTSOLV
from rpms_for_tests import same

SETS = ["nginx,/bin/sh", "charts,postfix", "stunnel"]
WORDS = [word for words in SETS for word in ("--set", words)]
ODD = "<script>alert(1)</script>"


def run(program, *words):
    done = subprocess.run([sys.executable, TOOLS / "upgrade.py", "--program", program, *words], capture_output=True, text=True)
    return done.returncode, done.stdout, done.stderr


def outcomes(text):
    """What upgrade.py prints of each set: its words, what becomes of it, and how many problems it has."""
    for part in re.split(r"(?=^set \d+, )", text, flags=re.MULTILINE)[1:]:
        head, told = part.splitlines()[:2]
        yield re.match(r"set \d+, (.*?)(?:: \d+ packages)?$", head)[1], told.strip(), len(re.findall(r"^  problem \d+:$", part, re.MULTILINE))


def try_folder(program, folder):
    status, told, errors = run(program, OLD, NEW, *WORDS, "--html", folder / "pages")
    same("status, errors, the last line", (status, errors, told.splitlines()[-1]), (1, TOLD, f"pages in {folder}/pages/index.html"))
    same("the same text without pages", run(program, OLD, NEW, *WORDS)[1] + told.splitlines()[-1] + "\n", told)
    first = bytes_of(folder / "pages")
    same(
        "files",
        sorted(first),
        sorted(["index.html", "list.txt", "list.js", "search.js", "style.css", "state.json.gz", *(f"set/{number}.html" for number in (1, 2, 3))]),
    )
    same("faults", faults_of(folder / "pages"), [])
    run(program, OLD, NEW, *WORDS, "--html", folder / "pages")
    same("the same bytes, in the place of the earlier ones", bytes_of(folder / "pages") == first, True)
    same("an upgrade without sets", (run(program, NEW, NEW, "--html", folder / "all")[0], faults_of(folder / "all")), (0, []))
    for words, fault in (
        (["--since", folder], "--since wants --html FOLDER, where what changed is told"),
        (["--html", folder], f"{folder}: it is there, and has no state.json.gz of an earlier run: name another folder"),
    ):
        same(f"a fault, {words}", (run("nosuch", OLD, NEW, *words)[:2], run("nosuch", OLD, NEW, *words)[2].splitlines()[-1]), ((2, ""), fault))


def try_foreign(program, folder):
    """Foreign texts are no elements."""
    old, new = folder / "odd.repo", folder / "new<b>.repo"
    old.write_text(f"=Pkg: {ODD} 1 1 noarch\n=Vnd: <script>old</script>\n=Pkg: <keep> 1 1 noarch\n=Req: {ODD} < 2\n")
    new.write_text(f"=Pkg: {ODD} 2 1 noarch\n=Vnd: <script>new</script>\n")
    status, told, errors = run(program, old, new, "--set", ODD, "--set", "<keep>", "--job", "favor name <i>", "--html", folder / "odd")
    same("foreign texts", (status, faults_of(folder / "odd"), errors), (1, [], TOLD))
    text = (folder / "odd" / "set" / "1.html").read_text()
    same("the vendors", "(&lt;script&gt;old&lt;/script&gt;) to" in text and "(&lt;script&gt;new&lt;/script&gt;)" in text, True)
    same("the job", "<code>favor name &lt;i&gt;</code>" in (folder / "odd" / "index.html").read_text(), True)


def try_since(program, folder):
    """What broke and what is mended is told by the change that did it: yesterday neither the new libicu nor what requires it was there."""
    today, path, place = NEW.read_text(), folder / "next.repo", folder / "since"
    parts = re.split(r"(?=^=Pkg: )", today, flags=re.MULTILINE)
    yesterday = "".join(part for part in parts if not part.startswith(("=Pkg: libicu ", "=Pkg: postfix ")))
    words = [OLD, path, "--set", "charts,postfix", "--set", "bash", "--html", place]
    path.write_text(yesterday)
    same("yesterday all is well", run(program, *words, "--date", "2026-11-30")[0], 0)
    path.write_text(today)
    same("today it is not", run(program, *words, "--since", place, "--date", "2026-12-01")[0], 1)
    page = (place / "index.html").read_text()
    same(
        "tiles",
        re.findall(r"<strong>(\d+)</strong> ([^<]*)</li>", page),
        [("1", "of 2 sets does not go through; 0 before"), ("1", "newly broken"), ("0", "mended")],
    )
    broke = re.search(r'<section class="change"><h4><a href="set/1.html">charts,postfix</a></h4>\n<ul>(.*?)</ul>', page, re.DOTALL)[1]
    same(
        "the changes behind it",
        re.findall(r"<strong>(.*?)</strong>", broke),
        ["libicu-74.1-1.fc40.x86_64 came", "postfix-2:3.8.4-1.fc40.x86_64 came"],
    )
    same("faults", faults_of(place), [])
    path.write_text(yesterday)
    run(program, *words, "--since", place, "--date", "2026-12-02")
    same(
        "what is mended",
        re.findall(
            r'<h3>Mended</h3>\n<ul class="packages"><li><a href="set/1.html">charts,postfix</a> <span class="note">(.*?)</span>',
            (place / "index.html").read_text(),
        ),
        ["libicu-74.1-1.fc40.x86_64 went"],
    )


def try_browser(program, folder):
    """The numbers of the text are those of the pages, at both widths, and the search finds what changes."""
    place = folder / "pages"
    told = list(outcomes(run(program, OLD, NEW, *WORDS, "--html", place)[1]))
    with tempfile.TemporaryDirectory() as profile, browser.Browser(profile) as one:
        look_at(one, place, sorted(str(path.relative_to(place)) for path in place.rglob("*.html")))
        one.open(place / "index.html")
        rows = one.value(
            '[...document.querySelectorAll(".sets tbody tr")].map((row) => [...row.cells].map((cell) => cell.innerText.split("\\n")[0]))'
        )
        wanted = []
        for words, what, problems in sorted(told, key=lambda one: one[2] == 0):
            counts = re.match(r"it goes through: (\d+) upgraded, (\d+) new, (\d+) gone, (\d+) as they are", what)
            wanted.append([words, "it goes through" if counts else what, *(counts.groups() if counts else [""] * 4)])
        same("the table of sets", [[re.sub(r" (upgraded|new|gone|as they are)$", "", cell) for cell in row] for row in rows], wanted)
        same(
            "sets that do not go through",
            one.value('document.querySelector(".tiles strong").innerText'),
            str(sum(problems > 0 for *_, problems in told)),
        )
        for number, (_, _, problems) in enumerate(told, 1):
            one.open(place / f"set/{number}.html")
            same(f"problems of set {number}", one.value('document.querySelectorAll("h2[id^=problem]").length'), problems)
            if shutil.which("dot"):
                same(f"pictures of set {number}", one.value('document.querySelectorAll(".drawing svg[role=img]").length'), problems)
        one.open(place / "index.html")
        same(
            "the search",
            found(one, "nginx-1"),
            (
                "1 found, 1 of them with a change or a problem",
                [["nginx-1:1.24.0-4.fc39.x86_64@system set 1: goes back to a lower version", (place / "set" / "1.html").resolve().as_uri()]],
            ),
        )
        look_at(one, folder / "odd", ["index.html", "set/1.html", "set/2.html"])


def main():
    program = pathlib.Path(sys.argv[1]).resolve() if len(sys.argv) > 1 else TESTSOLV
    if not program.is_file():
        print(f"skipped: there is no program {program}")
        return
    os.environ.pop("SOURCE_DATE_EPOCH", None)
    with tempfile.TemporaryDirectory() as name:
        folder = pathlib.Path(name)
        try_folder(program, folder)
        try_foreign(program, folder)
        try_since(program, folder)
        if TOLD:
            print("skipped: pictures, since there is no program dot")
        if browser.program():
            try_browser(program, folder)
        else:
            print("skipped: there is no Chromium (Debian: chromium)")
    print("as it should be")


if __name__ == "__main__":
    main()
