#!/usr/bin/env python3
"""Tries passed_over.py on files of its own making.

    tools/tests/test_passed_over.py
"""
import pathlib
import subprocess
import sys
import tempfile

from places import TOOLS

TOOL = TOOLS / "passed_over.py"

SCRIPT = """\
# a script
repo system 0 testtags <inline>
#>=Ver: 3.0
#>=Pkg: a 1 1 noarch
#>=REQ: b
#> =Pkg: c 1 1 noarch
#>+Req:
#>=Req: an entry of the block
#>-Req:
repo available 0 testtags there.repo
system x86_64 rpm system
#>=Pkg: d 1 1 noarch
job install name a
result transaction <inline>
#>install a-1-1.noarch@available
"""

REPOSITORY = """\
=Pkg: b 1 1 noarch
=Reqs: a

=Req a
# a comment
+Sum:
nothing of this is told
-Sum:
-Req:
=Tim: 17
=Con: namespace:otherproviders(smtp_daemon)
+Sup:
namespace:splitprovides(util + /sbin/tool)
-Sup:
=Sup: namespace:language(de)
"""

GOOD = "=Ver: 3.0\n=Pkg: b 1 1 noarch\n+Prv:\nlib\n-Prv:\n"

TOLD = """\
case.t:5: a tag that is not read: =REQ:
case.t:6: a blank stands before the heading:  =Pkg: c 1 1 noarch
there.repo:2: it has no heading: =Reqs: a
there.repo:4: it has no heading: =Req a
there.repo:6: a block of a tag that is not read: +Sum:
there.repo:9: it closes no block: -Req:
there.repo:11: a namespace of libsolv's, which no package has here: =Con: namespace:otherproviders(smtp_daemon)
there.repo:13: a namespace of libsolv's, which no package has here: namespace:splitprovides(util + /sbin/tool)
case.t:12: inline lines that belong to no line: =Pkg: d 1 1 noarch
"""


def same(what, found, wanted):
    if found != wanted:
        sys.exit(f"{what}: found\n{found}\nand not\n{wanted}")


def main():
    with tempfile.TemporaryDirectory() as folder:
        for name, text in (("case.t", SCRIPT), ("there.repo", REPOSITORY), ("good.repo", GOOD)):
            pathlib.Path(folder, name).write_text(text)
        run = subprocess.run([sys.executable, TOOL, "case.t"], capture_output=True, text=True, cwd=folder)
        same("what is told of a script", (run.returncode, run.stdout, run.stderr), (1, TOLD, ""))
        run = subprocess.run([sys.executable, TOOL, "there.repo"], capture_output=True, text=True, cwd=folder)
        same("what is told of a repository", run.stdout, "".join(line + "\n" for line in TOLD.split("\n") if line.startswith("there")))
        run = subprocess.run([sys.executable, TOOL, "good.repo"], capture_output=True, text=True, cwd=folder)
        same("what is told of a good one", (run.returncode, run.stdout, run.stderr), (0, "", ""))
        run = subprocess.run([sys.executable, TOOL, "good.repo", "none.repo"], capture_output=True, text=True, cwd=folder)
        same("a file that is not there", (run.returncode, run.stdout, run.stderr), (2, "", "none.repo: No such file or directory\n"))
    print("as it should be")


if __name__ == "__main__":
    main()
