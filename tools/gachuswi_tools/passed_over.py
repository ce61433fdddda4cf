#!/usr/bin/env python3
"""Lists the lines of repositories that say nothing to testsolv, and were perhaps meant to say something.

    gachuswi-tools passed_over FILE ..

A FILE is a script, whose repositories are gone through with it, inline or in files of their own, or a repository in testtags
format. As the format wants it, testsolv passes over each line that has no heading, and each tag that it does not know. This
tells of them, as `FILE:LINE: a tag that is not read: =REQ:`: misspelt tags, a blank before a heading, a block that was not
opened; and of what libsolv means by its own namespaces, which no package has here: a conflict with `namespace:otherproviders(X)`
never holds, and for `namespace:splitprovides(..)` the script is refused (tools/gachuswi-tools unpack_debugdata mends both). `=Ver:` and
`=Tim:`, which libsolv writes, blank lines and lines that begin with `#` are not told.
"""
import pathlib
import re

import testtags

READ = {"Pkg", "Prv", "Req", "Prq", "Con", "Obs", "Rec", "Sug", "Sup", "Enh", "Vnd", "Fls"}
# what libsolv writes and nobody misses
KNOWN = {"Ver", "Tim"}
HEADING = re.compile(r"([=+-])([A-Za-z]{3}):")
# namespaces that libsolv has an answer for by itself
LIBSOLVS = re.compile(r"namespace:(?:otherproviders|splitprovides)\(")


def repository(lines):
    """What is told of numbered lines of one repository: a number and words for each."""
    block = None
    for number, line in lines:
        heading = HEADING.match(line)
        if LIBSOLVS.search(line):
            yield number, f"a namespace of libsolv's, which no package has here: {line}"
        if block is not None:
            if heading and heading.group(1) == "-" and heading.group(2) == block:
                block = None
            continue
        if heading:
            sign, tag = heading.groups()
            if sign == "-":
                yield number, f"it closes no block: {line}"
            elif tag not in READ | KNOWN:
                yield number, f"a {'tag' if sign == '=' else 'block of a tag'} that is not read: {heading.group(0)}"
            if sign == "+":
                block = tag
        elif line.strip() and not line.startswith("#"):
            why = "a blank stands before the heading" if HEADING.match(line.strip()) else "it has no heading"
            yield number, f"{why}: {line}"


def told_of_repository(path):
    text = path.read_text(errors="replace").split("\n")
    return [(path, number, words) for number, words in repository(enumerate(text, 1))]


def told_of_script(path, text):
    """The same of a script's repositories, and of inline lines that belong to no line."""
    found, at = [], 0
    lines = [(number, line.rstrip("\r")) for number, line in enumerate(text, 1)]
    while at < len(lines):
        number, line = lines[at]
        words = line.split()
        at += 1
        inline = []
        while at < len(lines) and lines[at][1].startswith("#>"):
            inline.append((lines[at][0], lines[at][1][2:]))
            at += 1
        is_repo = words[:1] == ["repo"] and len(words) == 5 and words[3] == "testtags"
        takes = words and words[-1] == "<inline>" and (is_repo or words[0] == "result")
        if is_repo and takes:
            found += [(path, *told) for told in repository(inline)]
        elif is_repo:
            file = path.parent / words[4]
            if file.is_file():
                found += told_of_repository(file)
        if inline and not takes:
            # (the first line of a file may be one of them)
            found += [(path, inline[0][0], f"inline lines that belong to no line: {inline[0][1]}")]
        if line.startswith("#>"):
            found += [(path, number, f"inline lines that belong to no line: {line[2:]}")]
    return found


def told_of(path):
    text = path.read_text(errors="replace").split("\n")
    is_repository = any(HEADING.match(line) for line in text)
    return told_of_repository(path) if is_repository else told_of_script(path, text)


def main(given):
    found = [told for path in given.files for told in told_of(path)]
    for path, number, words in found:
        print(f"{path}:{number}: {words}")
    return 1 if found else 0


if __name__ == "__main__":
    arguments = testtags.arguments(__doc__, "a line was told")
    arguments.add_argument("files", metavar="FILE", nargs="+", type=pathlib.Path)
    testtags.run(main, arguments)
