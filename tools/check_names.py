#!/usr/bin/env python3
"""Tells of names in backticks of the pages at the top and in docs/ that stand nowhere else.

    tools/check_names.py [TOP]

TOP is the top of a clone, and that of this one where it is not given. What is missing is told on stdout, a line each, and the
status is then 1. It reads text alone, and leaves out blocks that are fenced by ```. Four tests:

1. Each name inside backticks stands as a word in crates/, tools/ (but not in this file), include/, c_tests/, packaging/,
   examples/, docs/man/, .ci/ or in the toolchain's folder, which `rt doc` tells. A name with hyphens may stand part by part.
2. Of `NAME` of `solv_x` (or `A`, `B` and `C` of it) the name stands in that crate, or is a module of it.
3. A path in backticks that ends as a file of this repository does is the end of a file's path.
4. What docs/ARCHITECTURE.md says that a crate stands on comes to what crates.txt says, each with what is below it.

Names of less than three letters, numbers and words of capital letters are not looked at. EXCEPT has what is rightly nowhere:
words of other programs, flags that are not read, loads that were measured, endings of names, and forms that are had otherwise.
"""
import os
import pathlib
import re
import subprocess
import sys

EXCEPT = set(
    """
apt-get autogroup bestobeypolicy bud callgrind chrt dac8208d650f15bf dhat dump-instr harsh-distupgrade harsh-update-best
harsh-verify hugetlb install-gnome installcheck keepexplicitobsoletes man1 man3 mandoc massif nonexistent norec oantt perf
pkgconfig readelf regex_t relro renice sched_autogroup_enabled setev setname setrepo setvendor testcase_write Tlint
update-desktop uprobe_events uprobes yumobsoletes RichDependencies SuSEconfig lhca glib2-branding-upstream pkill _in _lines _repos _rules set_link
in-ARM held-in-ARM returns-in-ARM-clause-NAME returns-in_ok-x-in-ARM-clause-NAME
compose.proof.t upgrade-2.t src/whole/.._lines.rt specs/Inner/X.antt proofs/block/Block/NAME/Proof.antt
pool.c evr.c poolarch.c testcase.c rules.c solver.c policy.c cleandeps.c problems.c transaction.c order.c testsolv.c
""".split()
)
FOLDERS = ("crates", "tools", "include", "c_tests", "packaging", "examples", "docs/man", ".ci")
NAME = re.compile(r"[A-Za-z_]\w*(?:[-']\w+)*")
SPAN = re.compile(r"`([^`\n]+)`")
PATH = re.compile(r"^[\w./-]+\.(?:rt|antt|py|t|p|md|h|c|edit|sh)$")
PLACES = re.compile(r"((?:`\w+`(?:, | and | or |, and ))*`\w+`) of `(solv_\w+|gachuswi|testsolv|proofcheck)`")


def parts(name):
    return re.split(r"[-']", name)


def in_toolchain(names):
    """Which of these names stand in the toolchain's folder."""
    try:
        told = subprocess.run(["rt", "doc"], capture_output=True, text=True, timeout=60).stdout.split()
        kit = str(pathlib.Path(told[0]).parent)
        wanted = "\n".join(sorted({part for name in names for part in [name] + parts(name)}))
        found = subprocess.run(
            ["grep", "-rhowFI", "--include=*.rt", "--include=*.antt", "--include=*.md", "-f", "-", kit],
            input=wanted,
            capture_output=True,
            text=True,
            errors="replace",
            timeout=600,
        ).stdout.split("\n")
    except (OSError, IndexError, subprocess.SubprocessError):
        return set()
    return set(found)


def sources(top):
    """The files where names may stand, without what builds leave, and without this one."""
    for folder in FOLDERS:
        for here, inside, names in os.walk(top / folder):
            inside[:] = sorted(set(inside) - {"out", "__pycache__"})
            yield from (pathlib.Path(here, name) for name in sorted(names) if name != "check_names.py")


def below(crate, edges):
    """What a crate stands on, in turn."""
    seen, left = set(), list(edges.get(crate, ()))
    while left:
        one = left.pop()
        if one not in seen:
            seen.add(one)
            left.extend(edges.get(one, ()))
    return seen


def layers(top):
    """Where the table of crates and crates.txt differ."""
    edges = {}
    for line in (top / "crates.txt").read_text().split("\n"):
        head, colon, rest = line.split("#")[0].partition(":")
        if colon and head.split():
            edges[head.split()[0]] = rest.split()
    own = set(edges)
    edges = {crate: [one for one in rest if one in own] for crate, rest in edges.items()}
    for number, line in enumerate((top / "docs/ARCHITECTURE.md").read_text().split("\n"), 1):
        cells = [cell.strip() for cell in line.strip().strip("|").split("|")]
        crate = cells[0].strip("`")
        if len(cells) < 3 or crate not in own:
            continue
        named = [one.strip() for one in cells[2].split(",") if one.strip()]
        named = [one if one in own else "solv_" + one for one in named]
        said = set(named).union(*(below(one, edges) for one in named)) if named else set()
        for one in sorted((below(crate, edges) - said) - {"solv_list"}):
            yield f"docs/ARCHITECTURE.md:{number}: {crate} stands on {one} too"
        for one in sorted(said - below(crate, edges)):
            yield f"docs/ARCHITECTURE.md:{number}: {crate} does not stand on {one}"


def main():
    top = pathlib.Path(sys.argv[1]).resolve() if sys.argv[1:] else pathlib.Path(__file__).resolve().parent.parent
    known, by_crate, files = set(), {}, []
    for path in sources(top):
        here = path.relative_to(top)
        own = set(NAME.findall(path.read_text(errors="replace"))) | set(NAME.findall(str(here)))
        known |= own
        files.append("/" + str(here))
        if here.parts[0] == "crates":
            by_crate.setdefault(here.parts[1], set()).update(own)
    for path in list(top.glob("*")) + list((top / "docs").glob("*")):
        files.append("/" + str(path.relative_to(top)))
        known.update(NAME.findall(path.name))
    known |= {part for name in known for part in parts(name)}
    faults, missing = [], {}
    for page in sorted(top.glob("*.md")) + sorted((top / "docs").glob("*.md")):
        fenced = False
        for number, line in enumerate(page.read_text().split("\n"), 1):
            if line.lstrip().startswith("```"):
                fenced = not fenced
            if fenced:
                continue
            at = f"{page.relative_to(top)}:{number}"
            for span in SPAN.findall(line):
                if span in EXCEPT:
                    continue
                if PATH.match(span):
                    if not any(each.endswith("/" + span.lstrip("./")) for each in files):
                        faults.append(f"{at}: no file {span}")
                for name in NAME.findall(span):
                    if len(name) >= 3 and name not in EXCEPT and re.search("[a-z]", name) and name not in known:
                        missing.setdefault(name, []).append(at)
            for names, crate in PLACES.findall(line):
                for name in re.findall(r"\w+", names.replace(" and ", " ").replace(" or ", " ")):
                    if name not in by_crate.get(crate, set()) and name not in by_crate:
                        faults.append(f"{at}: {name} of {crate}")
    held = known | in_toolchain(set(missing))
    for name, places in missing.items():
        if name not in held and not all(part in held for part in parts(name)):
            faults += [f"{at}: {name}" for at in places]
    faults += layers(top)
    print("\n".join(faults) if faults else "each name is there")
    return 1 if faults else 0


if __name__ == "__main__":
    sys.exit(main())
