#!/usr/bin/env python3
"""Tells of sentences in pages that are too long, and of pages that are too many words together.

    tools/check_words.py [TOP]                   README.md and docs/*.md: at most 55,000 words in all, no sentence above 40, and
                                                 no entry of docs/DECISIONS.md above 80
    tools/check_words.py --table [PAGE ..]       the words of each page, those in tables and in code, its sentences, how many
                                                 of them have more than 40 words, and the longest

TOP is the top of a clone, and that of this one where it is not given. What is too long is told on stdout, and the status is
then 1. A word is what stands between blanks and has a letter or a digit. A span of code is one word, whatever it has inside,
and a link counts by its text. Blocks of code and rows of tables count as words, and have no sentences. A sentence ends at
`.`, `!` or `?` before a blank and what may begin a sentence, and at the end of a paragraph, a list item or a heading.
"""
import pathlib
import re
import sys

MOST_WORDS = 55_000
MOST_IN_SENTENCE = 40
# pages whose paragraphs and list items are short
MOST_IN_ENTRY = {"docs/DECISIONS.md": 80}
# how many longer sentences, and longer entries, may stand in a page for now: they say what is about to change
LONGER = {}
LONGER_ENTRIES = {}
FENCE = re.compile(r"^\s*(```|~~~)")
ITEM = re.compile(r"^\s*(?:[-*+]|\d+[.)])\s+")
RULE = re.compile(r"^\s*\|[\s:|-]+\|?\s*$")
END = re.compile(r"(?<=[.!?])[)\"”’*_]*\s+(?=[A-Z`\[(*_\"“0-9])")
NO_END = re.compile(r"(?:\b(?:e\.g|i\.e|cf|etc|vs|No)\.|\b[A-Z]\.)$")


def plain(text):
    """The text with each span of code as one word, and links as their text."""
    text = re.sub(r"``[^`]+``|`[^`]*`", "`code`", text)
    return re.sub(r"!?\[([^\]]*)\]\([^)]*\)", r"\1", text)


def words(text):
    return sum(1 for word in text.split() if re.search(r"\w", word))


def blocks(lines):
    """The parts of a page as (kind, first line, text): prose, table, code or heading."""
    held, first, is_fenced = [], 0, False

    def ended():
        if held:
            yield "prose", first, " ".join(held)
            held.clear()

    for number, line in enumerate(lines, 1):
        if FENCE.match(line):
            yield from ended()
            is_fenced = not is_fenced
        elif is_fenced:
            yield "code", number, line
        elif not line.strip():
            yield from ended()
        elif line.startswith("#"):
            yield from ended()
            yield "heading", number, line.lstrip("# ")
        elif line.lstrip().startswith("|"):
            yield from ended()
            if not RULE.match(line):
                yield "table", number, line.replace("|", " ")
        elif not held and line.startswith("    ") and not ITEM.match(line):
            yield "code", number, line
        elif ITEM.match(line):
            yield from ended()
            held.append(line[ITEM.match(line).end() :])
            first = number
        else:
            first = first if held else number
            held.append(line.strip())
    yield from ended()


def sentences(text):
    text, parts, at = plain(text), [], 0
    for match in END.finditer(text):
        if not NO_END.search(text[at : match.start()]):
            parts.append(text[at : match.start()])
            at = match.end()
    return [part for part in [*parts, text[at:]] if words(part)]


def counted(path):
    """A page's row of the table, and its sentences that are too long, each with its line and its words."""
    row, long = {"words": 0, "table": 0, "code": 0, "sentences": 0, "longer": 0, "longest": 0}, []
    for kind, line, text in blocks(path.read_text().split("\n")):
        count = words(text if kind == "code" else plain(text))
        row["words"] += count
        if kind in ("table", "code"):
            row[kind] += count
        for sentence in sentences(text) if kind == "prose" else ():
            count = words(sentence)
            row["sentences"] += 1
            row["longest"] = max(row["longest"], count)
            if count > MOST_IN_SENTENCE:
                row["longer"] += 1
                long.append((line, count, sentence))
    return row, long


def pages(top):
    return [top / "README.md", *sorted((top / "docs").glob("*.md"))]


def table(paths, top):
    print("%-26s %6s %7s %6s %10s %8s %8s" % ("page", "words", "tables", "code", "sentences", "over 40", "longest"))
    rows = []
    for path in paths:
        row, _ = counted(path)
        rows.append(row)
        print("%-26s %6d %7d %6d %10d %8d %8d" % (path.relative_to(top) if path.is_relative_to(top) else path, *row.values()))
    sums = [
        max((row[it] for row in rows), default=0) if it == "longest" else sum(row[it] for row in rows)
        for it in ("words", "table", "code", "sentences", "longer", "longest")
    ]
    print("%-26s %6d %7d %6d %10d %8d %8d" % ("all", *sums))


def faults(top):
    every = 0
    for path in pages(top):
        row, long = counted(path)
        every += row["words"]
        name = str(path.relative_to(top))
        if name in MOST_IN_ENTRY:
            entries = [(line, words(plain(text)), text) for kind, line, text in blocks(path.read_text().split("\n")) if kind == "prose"]
            entries = [entry for entry in entries if entry[1] > MOST_IN_ENTRY[name]]
            if len(entries) > LONGER_ENTRIES.get(name, 0):
                yield from (f"{name}:{line}: an entry of {count} words: {' '.join(text.split()[:8])} .." for line, count, text in entries)
        if len(long) > LONGER.get(name, 0):
            yield from (f"{name}:{line}: {count} words: {' '.join(sentence.split()[:12])} .." for line, count, sentence in long)
    if every > MOST_WORDS:
        yield f"{every} words in all, and not {MOST_WORDS} at most"


def main():
    args, top = sys.argv[1:], pathlib.Path(__file__).resolve().parent.parent
    if args[:1] == ["--table"]:
        table([pathlib.Path(arg).resolve() for arg in args[1:]] or pages(top), top)
        return 0
    found = list(faults(pathlib.Path(args[0]).resolve() if args else top))
    print("\n".join(found) if found else "no page is too long, and no sentence")
    return 1 if found else 0


if __name__ == "__main__":
    sys.exit(main())
