#!/usr/bin/env python3
"""Tries how the tools end, what they show on a terminal, and what testtags.py reads.

    tools/tests/test_testtags.py
"""
import os
import pathlib
import pty
import subprocess
import sys
import tempfile

from places import TOOLS

import testtags
from rpms_for_tests import same

# a tool that does what its word says
TOOL = """\
import sys, time
sys.path.insert(0, {tools!r})
import testtags
def main(given):
    if given.what == "fault":
        raise testtags.Fault("a file:7: a cause")
    if given.what == "no file":
        open("/nonexistent/file")
    if given.what == "division":
        progress = testtags.Progress("things")
        return 1 // 0
    if given.what == "interrupt":
        raise KeyboardInterrupt
    if given.what == "much":
        print("x\\n" * 1000000)
    if given.what == "wait":
        progress = testtags.Progress("things")
        progress.step(7)
        time.sleep(2.2)
        progress.end()
    return int(given.what == "one")
arguments = testtags.arguments("A tool.", "it is one")
arguments.add_argument("what")
testtags.run(main, arguments)
"""
ENDS = (
    (["all"], 0, ""),
    (["one"], 1, ""),
    (["fault"], 2, "a file:7: a cause\n"),
    (["no file"], 2, "/nonexistent/file: No such file or directory\n"),
    (["division"], 2, "a fault of the tool, tool.py:11: ZeroDivisionError: integer division or modulo by zero\n"),
    (["interrupt"], 130, ""),
)
NO_REPOSITORY = "it has no package: it is no repository in testtags format, or was cut to nothing"
HEAD = "# rpmmd_to_testtags.py /srv/{0} --with {1}\n"
BASE = HEAD.format("base", "") + "=Pkg: permissions 1 1 noarch\n=Req: /sbin/tool\n=Pkg: aaa 1 1 noarch\n=Fls: /sbin/tool\n"


def try_ends(folder):
    tool = folder / "tool.py"
    tool.write_text(TOOL.format(tools=str(TOOLS)))
    for words, status, told in ENDS:
        done = subprocess.run([sys.executable, tool, *words], capture_output=True, text=True)
        same(f"how it ends, {words}", (done.returncode, done.stderr), (status, told))
    same("no words", subprocess.run([sys.executable, tool], capture_output=True).returncode, 2)
    told = subprocess.run([sys.executable, tool, "--help"], capture_output=True, text=True).stdout
    same(
        "what --help says of the status",
        " ".join(told.split()).endswith(
            "The status is 0 where all is well, 1 where it is one, 2 where the tool or its input failed, whatever it was, "
            "which one line tells, and 130 where it was interrupted."
        ),
        True,
    )
    piped = subprocess.run(
        ["bash", "-c", '"$0" "$1" much | head -n 1; exit "${PIPESTATUS[0]}"', sys.executable, tool], capture_output=True, text=True
    )
    same("a pipe that is closed", (piped.returncode, piped.stdout, piped.stderr), (2, "x\n", ""))
    shown = on_terminal([sys.executable, tool, "wait"])
    seconds = [f"7 things, {second} s" for second in range(3)]
    same("progress that moves, and is taken away", ([one for one in seconds if one in shown], shown.endswith("\r\033[K")), (seconds, True))


def on_terminal(command):
    """What a command shows on a terminal."""
    master, slave = pty.openpty()
    process = subprocess.Popen(command, stdout=slave, stderr=slave)
    os.close(slave)
    shown = b""
    try:
        while piece := os.read(master, 1000):
            shown += piece
    except OSError:
        pass
    os.close(master)
    process.wait()
    return shown.decode()


def try_repositories(folder):
    """Files that are no repository, and a repository without packages."""
    path = folder / "some.repo"
    for text in ("", "<html>\n", "\n\n=Ver: 3.0\n"):
        path.write_text(text)
        try:
            found = list(testtags.packages(path))
        except testtags.Fault as fault:
            found = str(fault)
        same(f"no repository, {text!r}", found, f"{path}: {NO_REPOSITORY}")
    path.write_text(HEAD.format("some", ""))
    same("a repository without packages", list(testtags.packages(path)), [])
    path.write_text("=Pkg: a 1 1 noarch\n=Vnd: A\u2028B\u00a0\n")
    same("a vendor with what Python takes for a blank", [package.vendor for package, _ in testtags.packages(path)], ["A\u2028B\u00a0"])


def try_made_without(folder):
    """A repository that does not tell of a file which only another one names."""
    base, updates = folder / "base.repo", folder / "updates.repo"
    base.write_text(BASE)
    newer = "=Pkg: aaa 2 1 noarch\n"
    for others, packages, wanted in (
        ("", newer, ["/sbin/tool"]),
        (f"{base}", newer, []),
        ("/srv/base /srv/more", newer, []),
        ("", newer + "=Fls: /sbin/tool\n", []),
        ("", "=Pkg: bbb 2 1 noarch\n", []),
    ):
        updates.write_text(HEAD.format("updates", others) + packages)
        contents = {path: testtags.Contents(path) for path in (base, updates)}
        without = {path: others for path, others in testtags.made_without([base, updates]) if path == updates}
        found = [name for other in without.get(updates, ()) for name in testtags.may_lack(contents, updates, testtags.named_files(other))]
        same(f"files that may be missing, made with {others!r}, {packages!r}", found, wanted)


def main():
    with tempfile.TemporaryDirectory() as name:
        folder = pathlib.Path(name).resolve()
        try_ends(folder)
        try_repositories(folder)
        try_made_without(folder)
    print("as it should be")


if __name__ == "__main__":
    main()
