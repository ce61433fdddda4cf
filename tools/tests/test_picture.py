#!/usr/bin/env python3
"""Tries picture.py on scripts of examples/ and on one of its own making.

    tools/tests/test_picture.py [TESTSOLV]

Without the word it takes the program where `rt run` builds it. The picture by Graphviz is tried where there is `dot`.
"""
import pathlib
import shutil
import subprocess
import sys
import tempfile

from places import COMPOSE, EXAMPLES, NEXT, PAGE, TOOLS

import providers
from rounds import TESTSOLV
from rpms_for_tests import same


FIRST = """\
job erase name libvim
   -> erases: libvim-9.1-1.fc39.x86_64@system
vim-9.1-1.fc39.x86_64@system (installed: to stay, or to be replaced)
   -> requires libvim: libvim-9.1-1.fc39.x86_64@system
way out 1: erase vim-9.1-1.fc39.x86_64@system
way out 2: deljob erase name libvim
"""

SECOND = """\
job install name nosuch
   -> asks for: nothing provides nosuch
way out 1: deljob install name nosuch
"""

CONFLICT = """\
job install name nano
   -> asks for: nano-7.2-1.fc39.x86_64@fedora
      -> conflicts with vim >= 9.1: vim-9.1-1.fc39.x86_64@system (installed: to stay, or to be replaced)
way out 1: replace vim-9.1-1.fc39.x86_64@system vim-9.0-1.fc38.x86_64@fedora
way out 2: deljob install name nano
"""

# a requirement that two packages of three meet, by their versions, and neither can come
MADE = """\
repo a 0 testtags <inline>
#>=Pkg: app 1 1 noarch
#>=Req: lib >= 2 | "quoted"
#>=Pkg: lib 1 1 noarch
#>=Pkg: lib 2 1 noarch
#>=Req: nothing
#>=Pkg: other 5 1 noarch
#>=Prv: lib = 3
#>=Con: app
system x86_64 rpm
job install name lib < 2
nextjob
job install name app
"""

TOLD = """\
job install name app
   -> asks for: app-1-1.noarch@a
      -> requires: lib >= 2 | "quoted"
         -> met by: lib-2-1.noarch@a
            -> requires: nothing provides nothing
         -> met by: other-5-1.noarch@a
            -> conflicts with app: app-1-1.noarch@a (see above)
way out 1: deljob install name app
"""


def try_many(program, folder):
    """Who meets each of many choices, by name and by what is provided: more than are asked for in one script."""
    script, count = folder / "many.t", 130
    script.write_text(
        "repo a 0 testtags <inline>\n"
        + "".join(f"#>=Pkg: lib{n} {version} 1 noarch\n#>=Prv: so{n} = {version}\n#>=Prv: name{n}\n" for n in range(count) for version in (1, 2, 3))
        + "system x86_64 rpm\njob noop\n"
    )
    wanted = {
        f"{kind} {name}{n} >= 2": [f"lib{n}-{version}-1.noarch@a" for version in (2, 3)]
        for n in range(count)
        for kind, name in (("name", "lib"), ("provides", "so"))
    }
    wanted |= {f"provides lib{n} > 3": [] for n in range(count)} | {"provides nobody": [], "pkg lib1-1-1.noarch@a": ["lib1-1-1.noarch@a"]}
    names, met = providers.meeting(program, folder, script, {"lib1-1-1.noarch@a"}, wanted.keys())
    same("who meets many choices", met, wanted)
    same("names of packages", (names["lib1-1-1.noarch@a"], len(names)), ("lib1", 3 * count))


def run(program, *words):
    done = subprocess.run([sys.executable, TOOLS / "picture.py", "--program", program, *words], capture_output=True, text=True)
    return done.returncode, done.stdout, done.stderr


def main():
    program = pathlib.Path(sys.argv[1]) if len(sys.argv) > 1 else TESTSOLV
    if not program.is_file():
        print(f"skipped: there is no program {program}")
        return
    problem, three = EXAMPLES / "problem.t", EXAMPLES / "rounds.t"
    same("the first problem", run(program, problem), (0, f"{problem.name}, round 1, problem 1\n\n{FIRST}", ""))
    same("the second problem", run(program, problem, "--problem", "2"), (0, f"{problem.name}, round 1, problem 2\n\n{SECOND}", ""))
    same("a conflict", run(program, three), (0, f"{three.name}, round 1, problem 1\n\n{CONFLICT}", ""))
    same("a round without a problem", run(program, three, "--round", "2")[::2], (2, f"{three}: it has no such problem\n"))
    with tempfile.TemporaryDirectory() as name:
        made, svg = pathlib.Path(name, "made.t"), pathlib.Path(name, "made.svg")
        made.write_text(MADE)
        same("two that meet it", run(program, made), (0, f"{made.name}, round 2, problem 1\n\n{TOLD}", ""))
        old, new = COMPOSE, NEXT
        upgrade = [sys.executable, TOOLS / "upgrade.py", "--program", program, old, new]
        subprocess.run([*upgrade, "--set", "charts,postfix", "--script", made.with_name("upgrade-2.t")], capture_output=True)
        same("docs/MAINTAINERS.md has the picture of an upgrade", run(program, made.with_name("upgrade-2.t"), "--problem", "2")[1] in PAGE, True)
        try_many(program, pathlib.Path(name))
        if shutil.which("dot"):
            same("status of a picture", run(program, made, "--svg", svg), (0, "", ""))
            text = svg.read_text()
            wanted = (
                "app-1-1.noarch @ a",
                "requires",
                "lib &gt;= 2 | &quot;quoted&quot;",
                "nothing provides nothing",
                "conflicts with app",
                "way out 1",
            )
            same("words of a picture", [word for word in wanted if word not in text.replace("&#45;", "-").replace("&#160;", " ")], [])
        else:
            print("skipped: there is no program dot")
    print("as it should be")


if __name__ == "__main__":
    main()
