#!/usr/bin/env python3
"""Tries unpack_debugdata.py on folders of its own making, and the program on what comes out.

    tools/tests/test_unpack_debugdata.py [PROGRAM]

Without PROGRAM, which is testsolv as `rt run` builds it, the second part is left out.
"""
import gzip
import pathlib
import subprocess
import sys
import tempfile

from places import TOOLS

TOOL = TOOLS / "unpack_debugdata.py"

SCRIPT = """\
repo @System -99.-1000 testtags @System.repo.gz
repo local -99.-1000 testtags local.repo.gz
repo media 0.-1000 rpmmd media.xml
repo more 0.-1000 testtags <inline>
#>=Pkg: more 1 1 noarch
system x86_64 rpm @System
poolflags implicitobsoleteusescolors whatprovideswithdisabled
solverflags allowvendorchange !allowdowngrade keeporphans
job update oneof editor-1-1.noarch@@System editor-2-1.noarch@local [targeted,setevr]
job distupgrade name reader [targeted]
job erase name writer [cleandeps,weak]
job update name reader [cleandeps]
job userinstalled oneof editor-1-1.noarch@@System
job install name viewer [forcebest,setarch]
job excludefromweak pkg editor-2-1.noarch@local
job multiversion provides kernel
result transaction,problems results/solver.result
nextjob
job erase name viewer
"""

UNPACKED = """\
repo @System -99 testtags @System.repo
repo local -99 testtags local.repo
repo media 0 empty
repo more 0 testtags <inline>
#>=Pkg: more 1 1 noarch
system x86_64 rpm @System
solverflags allowvendorchange !allowdowngrade
job update oneof editor-1-1.noarch@@System editor-2-1.noarch@local
job distupgrade name reader
job erase name writer [cleandeps]
job update name reader
job userinstalled oneof editor-1-1.noarch@@System
job install name viewer [forcebest]
job multiversion provides kernel
result transaction,problems results/solver.result
"""

# what libsolv writes of SUSE's forms and of names with parentheses, and what it becomes
FORMS = """\
=Ver: 3.0
=Pkg: postfix 1 1 noarch
=Con: namespace:otherproviders(smtp_daemon)
=Prv: smtp_daemon
+Sup:
namespace:splitprovides(util + /sbin/tool)
app & namespace:language(de)
-Sup:
=Prv: font\\28waver\\28brk\\29\\29
=Req: open\\28only
=Pkg: exim 1 1 noarch
+Con:
other
namespace:otherproviders(smtp_daemon)
-Con:
=Prv: smtp_daemon
"""
PLAIN_FORMS = """\
=Ver: 3.0
=Pkg: postfix 1 1 noarch
=Con: smtp_daemon
=Prv: smtp_daemon
+Sup:
app & namespace:language(de)
-Sup:
=Prv: font(waver(brk))
=Req: open\\28only
=Pkg: exim 1 1 noarch
+Con:
other
smtp_daemon
-Con:
=Prv: smtp_daemon
"""
FORMS_TOLD = "left out, which may change the answer, 2 times: that a package comes where a file moved to it (splitprovides)\n"

INSTALLED = "=Ver: 3.0\n=Pkg: editor 1 1 noarch\n=Pkg: reader 1 1 noarch\n"
LOCAL = "=Ver: 3.0\n=Pkg: editor 2 1 noarch\n=Pkg: viewer 1 1 noarch\n+Obs:\nreader\n-Obs:\n"

RESULT = """\
erase reader-1-1.noarch@@System viewer-1-1.noarch@local
install viewer-1-1.noarch@local
upgrade editor-1-1.noarch@@System editor-2-1.noarch@local
"""

LEFT_OUT = """\
left out, which may change the answer: a job excludefromweak
left out, which may change the answer, 2 times: the job's flag targeted
left out, which may change the answer: the job's flag weak
left out, which may change the answer: the packages of a repository of the type rpmmd
left out, which may change the answer: the rest behind a line nextjob
left out: a line poolflags
left out: the job's flag cleandeps
left out: the job's flag setarch
left out: the job's flag setevr
left out, 4 times: the second part of all priorities, -1000
left out: the solver's flag keeporphans
"""

# a script, and the words at the end of the fault with which it is refused
REFUSED = (
    ("repo a 0 testtags a.repo.zst\njob install name a\n", "name the other file in testcase.t"),
    ("repo a 0 testtags a.repo.gz\nrepo b 0 testtags a.repo\njob install name a\n", "a.repo and a.repo.gz would both be a.repo"),
    ("repo a 0 testtags ../a.repo\njob install name a\n", "../a.repo stands outside of the folder"),
    ("repo a 0 empty\njob drop_orphaned all packages\njob multiversion provides kernel\n", "no job is left that asks for something"),
)


def try_forms(folder):
    """Repositories in a file of their own and inline."""
    source, target = folder / "suse", folder / "plain"
    source.mkdir()
    inline = lambda text: "".join(f"#>{line}\n" for line in text.splitlines())
    script = "repo a 0 testtags a.repo.gz\nrepo b 0 testtags <inline>\n{}job install name postfix\njob install name exim\njob favor provides {}\n"
    (source / "testcase.t").write_text(script.format(inline(FORMS), "font\\28waver\\28brk\\29\\29"))
    (source / "a.repo.gz").write_bytes(gzip.compress(FORMS.encode()))
    run = subprocess.run([sys.executable, TOOL, source, target], capture_output=True, text=True)
    same("what is told of SUSE's forms", (run.returncode, run.stderr), (0, FORMS_TOLD))
    wanted = script.format(inline(PLAIN_FORMS), "font(waver(brk))").replace(".gz", "")
    same("the script of SUSE's forms", (target / "testcase.t").read_text(), wanted)
    same("the repository of SUSE's forms", (target / "a.repo").read_text(), PLAIN_FORMS)
    if len(sys.argv) > 1:
        (target / "testcase.t").write_text(wanted.replace("=Req: open\\28only", "=Sug: open\\28only"))
        (target / "a.repo").write_text(PLAIN_FORMS.replace("=Req: open\\28only", "=Sug: open\\28only"))
        solved = subprocess.run([sys.argv[1], "-r", target / "testcase.t"], capture_output=True, text=True)
        same(
            "two mail servers that exclude each other",
            (solved.returncode, solved.stderr, solved.stdout.count("conflicts with smtp_daemon") > 0),
            (0, "", True),
        )


def same(what, found, wanted):
    if found != wanted:
        sys.exit(f"{what}: found\n{found}\nand not\n{wanted}")


def main():
    with tempfile.TemporaryDirectory() as folder:
        source, target = pathlib.Path(folder, "from"), pathlib.Path(folder, "to")
        source.mkdir()
        (source / "testcase.t").write_text(SCRIPT)
        (source / "results").mkdir()
        (source / "results" / "solver.result").write_text(RESULT)
        (source / "@System.repo.gz").write_bytes(gzip.compress(INSTALLED.encode()))
        (source / "local.repo.gz").write_bytes(gzip.compress(LOCAL.encode()))
        run = subprocess.run([sys.executable, TOOL, source, target], capture_output=True, text=True)
        same("status", run.returncode, 0)
        same("what was left out", run.stderr, LEFT_OUT)
        same("the script", (target / "testcase.t").read_text(), UNPACKED)
        same("what is installed", (target / "@System.repo").read_text(), INSTALLED)
        same("what is expected", (target / "results" / "solver.result").read_text(), RESULT.replace("erase", "obsolete"))
        again = subprocess.run([sys.executable, TOOL, source, target], capture_output=True, text=True)
        same("a folder that is there already", again.returncode, 2)
        try_forms(pathlib.Path(folder))
        for number, (script, fault) in enumerate(REFUSED):
            refused, nothing = pathlib.Path(folder, f"refused{number}"), pathlib.Path(folder, f"nothing{number}")
            refused.mkdir()
            (refused / "testcase.t").write_text(script)
            (refused / "a.repo").write_text(LOCAL)
            (refused / "a.repo.gz").write_bytes(gzip.compress(LOCAL.encode()))
            (refused / "a.repo.zst").write_bytes(b"packed")
            run = subprocess.run([sys.executable, TOOL, refused, nothing], capture_output=True, text=True)
            same(f"a script that is refused, {number}", (run.returncode, run.stderr.endswith(fault + "\n"), nothing.exists()), (2, True, False))
        if len(sys.argv) > 1:
            solved = subprocess.run([sys.argv[1], target / "testcase.t"], capture_output=True, text=True)
            same("what the program says", (solved.returncode, solved.stdout, solved.stderr), (0, "", ""))
    print("as it should be")


if __name__ == "__main__":
    main()
