"""What the tests of pages look at: that a folder of pages is whole, and how it looks and behaves in a browser."""
import html.parser
import pathlib
import shutil
import time
import urllib.parse

import browser
from rpms_for_tests import same

VOID = {"meta", "link", "input", "br"}
TAGS = (
    VOID
    | set(
        """html head title body a main footer nav ol ul li p h1 h2 h3 h4 h5 span strong b i form label div noscript section code
    table caption thead tbody tr th td dl dt dd pre details summary script svg g polygon path text""".split()
    )
    | {"polyline", "ellipse"}
)
# what is told where there is no Graphviz
NO_PICTURES = "there will be no pictures, since there is no program dot: install the package graphviz\n"
TOLD = "" if shutil.which("dot") else NO_PICTURES
# the width and height of a desk's window and of a phone's
WINDOWS = {"desk": (1280, 900), "phone": (360, 740)}
# what may be wider than a phone, since it scrolls by itself
WIDE = """[...document.querySelectorAll("main *")].filter((one) => one.getBoundingClientRect().right > innerWidth + 1
    && !one.closest(".drawing, .wide, pre, .skip")).map((one) => one.outerHTML.slice(0, 80))"""
FOCUSED = """(() => { const one = document.activeElement, style = getComputedStyle(one);
    return [one.tagName, one.getAttribute("href"), style.outlineStyle !== "none" && parseFloat(style.outlineWidth) > 0]; })()"""


class Page(html.parser.HTMLParser):
    """A page's elements: whether they nest, its links, names and headings."""

    def __init__(self, path):
        super().__init__()
        self.open, self.faults, self.links, self.ids, self.level = [], [], [], set(), 0
        self.feed(path.read_text(encoding="utf-8"))
        self.close()
        self.faults += [f"{tag} is not closed" for tag in self.open]

    def handle_starttag(self, tag, attributes):
        words = dict(attributes)
        self.faults += [f"<{tag}>"] * (tag not in TAGS) + [f"{name}=" for name in words if name.startswith("on") or name == "style"]
        self.links += [words[name] for name in ("href", "src") if words.get(name)]
        if tag == "script" and words.get("src") != "search.js":
            self.faults.append("a script of another place")
        if "id" in words:
            self.faults += [f"the name {words['id']} twice"] * (words["id"] in self.ids)
            self.ids.add(words["id"])
        if tag[0] == "h" and tag[1:].isdecimal():
            self.faults += [f"{tag} below h{self.level}"] * (int(tag[1]) > self.level + 1)
            self.level = int(tag[1])
        if tag not in VOID:
            self.open.append(tag)

    def handle_startendtag(self, tag, attributes):
        self.handle_starttag(tag, attributes)
        if tag not in VOID:
            self.open.pop()

    def handle_endtag(self, tag):
        if not self.open or self.open.pop() != tag:
            self.faults.append(f"</{tag}> where another one is open")


def faults_of(folder, every=1):
    """What is wrong with the pages of a folder, or each so-manieth of them: elements that do not nest or may not be there, and
    links that lead nowhere."""
    folder, pages, faults = pathlib.Path(folder).resolve(), {}, []
    for path in sorted(folder.rglob("*.html"))[::every]:
        pages[path] = Page(path)
        faults += [f"{path.relative_to(folder)}: {fault}" for fault in pages[path].faults]
    for path, page in pages.items():
        for link in page.links:
            place, _, name = link.partition("#")
            target = (path.parent / urllib.parse.unquote(place)).resolve() if place else path
            if not target.is_file() or not target.is_relative_to(folder):
                faults.append(f"{path.relative_to(folder)}: {link} leads nowhere")
            elif name and target in pages and name not in pages[target].ids:
                faults.append(f"{path.relative_to(folder)}: {link} has no such place")
    return faults


def bytes_of(folder):
    """The names and bytes of all files of a folder."""
    return {str(path.relative_to(folder)): path.read_bytes() for path in sorted(pathlib.Path(folder).rglob("*")) if path.is_file()}


def found(one, text):
    """What the search tells for a text: the first line, and each package with the address of its page, if it has one."""
    one.value('(() => { const field = document.getElementById("search"); field.value = ""; field.focus(); })()')
    one.type(text)
    for _ in range(600):
        if told := one.value('document.querySelector("#found p")?.innerText'):
            break
        time.sleep(0.1)
    rows = one.value('[...document.querySelectorAll("#found li")].map((row) => [row.innerText, row.querySelector("a")?.href ?? null])')
    return told, rows


def look_at(one, folder, paths):
    """Each of the pages is no wider than its window, at both widths, light and dark; nothing is asked of any network."""
    one.asked.clear()
    for window, size in WINDOWS.items():
        one.size(*size)
        for path in paths:
            one.open(pathlib.Path(folder, path))
            same(f"{path} is too wide at the {window}", (one.value("document.documentElement.scrollWidth") > size[0], one.value(WIDE)), (False, []))
    same("what is asked for is a file of the folder", [url for url in one.asked if not url.startswith(pathlib.Path(folder).resolve().as_uri())], [])
    same("no script fails", one.said, [])


def walk(one, count):
    """Where the key Tab leads, one link after the other, and whether the focus is seen there."""
    told = []
    for _ in range(count):
        one.press("Tab")
        told.append(one.value(FOCUSED))
    return told
