#!/usr/bin/env python3
"""Tries shrink.py on scripts of examples/ and on one of its own making.

    tools/tests/test_shrink.py [TESTSOLV]

Without the word it takes the program where `rt run` builds it.
"""
import pathlib
import random
import subprocess
import sys
import tempfile

from places import EXAMPLES, PAGE, TOOLS

from rounds import TESTSOLV
from rpms_for_tests import same

REQUIRES = "package vim-9.1-1.fc39.x86_64@system requires libvim, but none of the providers can be installed"

# what has to stay, so that a line is printed: (script, line, what is left)
SMALL = (
    ("problem.t", "problem 2 info nothing provides requested nosuch", "job install name nosuch\n"),
    (
        "problem.t",
        REQUIRES,
        """\
repo system 0 testtags <inline>
#>=Pkg: libvim 9.1 1.fc39 x86_64
#>=Pkg: vim 9.1 1.fc39 x86_64
#>=Req: libvim
system x86_64 rpm system
job erase name libvim
""",
    ),
    (
        "changes.t",
        "erase telnet-0.17-88.fc38.x86_64@system",
        """\
repo system 0 testtags <inline>
#>=Pkg: telnet 0.17 88.fc38 x86_64
system x86_64 rpm system
job erase name telnet
""",
    ),
    (
        "changes.t",
        "change nano-7.2-1.fc39.i686@system nano-7.2-1.fc39.x86_64@fedora",
        """\
repo system 0 testtags <inline>
#>=Pkg: nano 7.2 1.fc39 i686
repo fedora 0 testtags <inline>
#>=Pkg: nano 7.2 1.fc39 x86_64
system x86_64 rpm system
job install pkg nano-7.2-1.fc39.x86_64@fedora
""",
    ),
)

# a kind of lines, a disabled package, a job that chooses, and a namespace, on each of which a line depends; and what does not matter
ODD = """\
repo system 0 testtags <inline>
#>=Pkg: old 1 1 noarch
repo r 0 testtags <inline>
#>=Pkg: a 1 1 noarch
#>=Vnd: Some Body
#>=Pkg: b 1 1 noarch
#>=Pkg: c 1 1 noarch
#>=Sup: namespace:language(de)
system x86_64 rpm system
disable pkg a-1-1.noarch@r
namespace namespace:language(de) @SYSTEM old-1-1.noarch@system
solverflags allowdowngrade
job install oneof a-1-1.noarch@r b-1-1.noarch@r
job lock name old
result order,transaction <inline>
#>install nothing
nextjob
job install oneof a-1-1.noarch@r
job install name nosuch
nextjob
job erase name old
"""
ODD_LEFT = (
    (
        "order 0000001 install b-1-1.noarch@r",
        """\
repo r 0 testtags <inline>
#>=Pkg: b 1 1 noarch
job install oneof b-1-1.noarch@r
result transaction,order <inline>
""",
    ),
    (
        "package a-1-1.noarch@r is not installable",
        """\
repo r 0 testtags <inline>
#>=Pkg: a 1 1 noarch
disable pkg a-1-1.noarch@r
job install oneof a-1-1.noarch@r
""",
    ),
    (
        "install c-1-1.noarch@r",
        """\
repo r 0 testtags <inline>
#>=Pkg: c 1 1 noarch
#>=Sup: namespace:language(de)
namespace namespace:language(de) @SYSTEM
""",
    ),
)


def run(program, *words):
    done = subprocess.run([sys.executable, TOOLS / "shrink.py", "--program", program, *words], capture_output=True, text=True)
    return done.returncode, done.stdout, done.stderr


def noise(draw, count):
    """Packages that have nothing to do with anything but themselves."""
    return "".join(
        f"#>=Pkg: noise{n} 1 1 noarch\n#>=Prv: sound{n}\n#>=Req: sound{draw.randrange(count)}\n#>=Rec: noise{draw.randrange(count)}\n"
        for n in range(count)
    )


def main():
    program = pathlib.Path(sys.argv[1]).resolve() if len(sys.argv) > 1 else TESTSOLV
    if not program.is_file():
        print(f"skipped: there is no program {program}")
        return
    for script, line, left in SMALL:
        status, told, errors = run(program, EXAMPLES / script, line)
        same(f"{script}, {line}", (status, told, errors.count("\n")), (0, left, 1))
        same(f"docs/MAINTAINERS.md has it, {line}", told in PAGE, line == REQUIRES)
    with tempfile.TemporaryDirectory() as name:
        script, output = pathlib.Path(name, "odd.t"), pathlib.Path(name, "small.t")
        script.write_text(ODD)
        for line, left in ODD_LEFT:
            same(f"what a line depends on, {line}", run(program, script, line)[:2], (0, left))
        same("in the round that is named", run(program, script, "install c-1-1.noarch@r", "--round", "3")[:2], (0, ODD_LEFT[2][1]))
        many = "repo r 0 testtags <inline>\n" + noise(random.Random(1), 400) + (EXAMPLES / "problem.t").read_text()
        script.write_text(many.replace("job erase", "job install name noise7\njob erase"))
        status, told, errors = run(program, script, REQUIRES, "--output", output)
        same("in much noise", (status, told, output.read_text()), (0, "", SMALL[1][2]))
        same("how small it is", errors.startswith("2 packages and 1 lines of 403 packages and "), True)
        again = run(program, output, REQUIRES)
        same("what is small stays as it is", again[1], output.read_text())
        same("a line that is not there", run(program, script, "install nothing")[::2], (2, f"{script}: no round prints install nothing\n"))
        same("a round that is not there", run(program, script, REQUIRES, "--round", "2")[::2], (2, f"{script}: it has no round 2\n"))
        script.write_text("job frobnicate name lib\n")
        same("a script that is not read", run(program, script, "x")[::2], (2, f"testsolv: {script}:1: UnknownJob\n"))
        lost = pathlib.Path(name, "no", "such")
        same(
            "a place that is not there",
            run("nosuch", script, "x", "--output", lost)[::2],
            (2, f"{lost}: it cannot be written, since its folder is not there, or may not be written\n"),
        )
    print("as it should be")


if __name__ == "__main__":
    main()
