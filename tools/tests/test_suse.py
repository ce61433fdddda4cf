#!/usr/bin/env python3
"""Tries what the converters make of the names in which SUSE says dependencies.

    tools/tests/test_suse.py [TESTSOLV]

The lines are compared with those that libsolv reads, where its module for Python is there (Debian's python3-solv), and the
answers of the program with those that zypper gives, and libsolv's testsolv where that is there (libsolv-tools).
"""
import pathlib
import shutil
import subprocess
import sys
import tempfile

from places import PAGE, TOOLS

from rounds import TESTSOLV
from rpmmd_for_tests import convert, named, package, primary, write
from rpms_for_tests import same

COMPARE = TOOLS / "compare_readings.py"
LIBSOLVS = "/usr/bin/testsolv"
MANY = [f"l{number}" for number in range(61)]

# the names of a package: the list, the name, and the lines for it, which are what libsolv reads
FORMS = (
    ("conflicts", "otherproviders(smtp_daemon)", "=Con: smtp_daemon"),
    ("conflicts", "otherproviders(lib(x86-64))", "=Con: lib(x86-64)"),
    ("supplements", "packageand(app:gtk)", "=Sup: (app & gtk)"),
    ("supplements", "packageand(app::pattern:kde:lib(64bit))", "=Sup: (app & pattern:kde & lib(64bit))"),
    ("supplements", "packageand(pattern:gnome)", "=Sup: pattern:gnome"),
    ("supplements", "modalias(kernel-default:pci:v0000104Cd*)", "=Sup: (kernel-default & namespace:modalias(pci:v0000104Cd*))"),
    ("supplements", "modalias(pci:v000010DE*)", "=Sup: namespace:modalias(pci:v000010DE*)"),
    ("supplements", "system:modalias(usb:v1234*)", "=Sup: namespace:modalias(usb:v1234*)"),
    ("supplements", "filesystem(xfs)", "=Sup: namespace:filesystem(xfs)"),
    ("provides", "locale(app:de;fr)", "=Prv: locale(app:de;fr)\n=Sup: (app & (namespace:language(de) | namespace:language(fr)))"),
    ("provides", "locale(ja)", "=Prv: locale(ja)\n=Sup: namespace:language(ja)"),
    ("provides", "locale(:ko;;zh)", "=Prv: locale(:ko;;zh)\n=Sup: (namespace:language(:ko) | namespace:language(zh))"),
    (
        "provides",
        f"locale(app:{';'.join(MANY)})",
        f"=Prv: locale(app:{';'.join(MANY)})\n=Sup: (app & ("
        + " | ".join(f"namespace:language({one})" for one in MANY[:60])
        + "))\n=Sup: (app & namespace:language(l60))",
    ),
    ("provides", "plain(name)", "=Prv: plain(name)"),
    ("requires", "packageand(a:b)", "=Req: packageand(a:b)"),
)
MOVED = (
    "util:/sbin/tool",
    "left out, which may change the answer: that it comes where a file moved to it (splitprovides), "
    "as by libsolv in an update: util:/sbin/tool of moved\n",
)

PACKAGES = (
    package("postfix", provides=named("smtp_daemon"), conflicts=named("otherproviders(smtp_daemon)")),
    package("exim", provides=named("smtp_daemon"), conflicts=named("otherproviders(smtp_daemon)")),
    package("app"),
    package("gtk"),
    package("kernel-default"),
    package("fresh", supplements=named("gtk", "qt"), freshens=named("app")),
    package("app-gtk", supplements=named("packageand(app:gtk)")),
    package("app-lang", provides=named("locale(app:de;fr)")),
    package("wlan-kmp", supplements=named("modalias(kernel-default:pci:v0000104Cd*)")),
    package("wanting", requires=named("(nothing or nowhere)")),
)
NAMESPACES = "namespace namespace:language(de) @SYSTEM\nnamespace namespace:modalias(pci:v0000104Cd*) @SYSTEM\n"
# lines of a script, and what comes, as zypper and libsolv have it, or nothing where there is a problem
SCRIPTS = (
    ("job install name postfix\njob install name exim\n", None),
    ("job install name app\njob install name gtk\n", {"app", "gtk", "app-gtk", "fresh"}),
    ("job install name gtk\n", {"gtk"}),
    (NAMESPACES + "job install name app\n", {"app", "app-lang"}),
    (NAMESPACES + "job install name kernel-default\n", {"kernel-default", "wlan-kmp"}),
    ("job install name wanting\n", None),
)


def try_forms(folder):
    """Each form, by itself and beside libsolv's own reading."""
    packages = [package(f"p{number}", **{tag: named(name)}) for number, (tag, name, _) in enumerate(FORMS)]
    freshening = package("both", supplements=named("a", "filesystem(xfs)"), freshens=named("b", "c")), package("alone", freshens=named("b"))
    write(folder, primary=primary(*packages, *freshening, package("moved", provides=named(MOVED[0]))))
    status, text, errors = convert(folder)
    wanted = "".join(f"=Pkg: p{number} 1 1 noarch\n{lines}\n" for number, (_, _, lines) in enumerate(FORMS))
    wanted += "=Pkg: both 1 1 noarch\n=Sup: ((a | namespace:filesystem(xfs)) & (b | c))\n=Pkg: alone 1 1 noarch\n=Sup: b\n"
    page = PAGE.replace("\\|", "|")
    rows = [line for line in page.splitlines() if line.startswith(("| conflicts |", "| supplements |", "| provides |"))]
    known = {f"| {tag} | `{name}` |": lines.split("\n") for tag, name, lines in FORMS}
    for row in rows:
        lines = known.get("|".join(row.split("|", 3)[:3]) + "|")
        same(f"docs/MAINTAINERS.md, {row}", "util:" in row if lines is None else f"`{lines[-1]}`" in row, True)
    same("docs/MAINTAINERS.md has rows", len(rows), 8)
    same("the forms", (status, text, errors), (0, wanted + f"=Pkg: moved 1 1 noarch\n=Prv: {MOVED[0]}\n", MOVED[1]))
    python = next(
        (
            one
            for one in (sys.executable, "/usr/bin/python3")
            if shutil.which(one) and subprocess.run([one, "-c", "import solv"], capture_output=True).returncode == 0
        ),
        None,
    )
    if not python:
        print("skipped, libsolv's own reading: there is no module solv (python3-solv)")
        return
    compared = subprocess.run([python, COMPARE, folder], capture_output=True, text=True)
    same(
        f"beside libsolv's reading, {compared.stderr}",
        (compared.returncode, compared.stdout),
        (
            1,
            "      1 only by libsolv: =Sup: namespace:splitprovides(util + /sbin/tool) of moved\n"
            f"{len(FORMS) + 3} packages here, {len(FORMS) + 3} by libsolv, 1 differences\n",
        ),
    )
    write(folder, primary=primary())
    compared = subprocess.run([python, COMPARE, folder], capture_output=True, text=True)
    same("no package in either", (compared.returncode, compared.stdout), (0, "0 packages here, 0 by libsolv, 0 differences\n"))


def come(program, script):
    """The names of the packages that come, or None where there is a problem."""
    lines = subprocess.run([program, "-r", script], capture_output=True, text=True).stdout.splitlines()
    if any(line.startswith("problem ") for line in lines):
        return None
    return {line.split()[1].rsplit("-", 2)[0] for line in lines if line.startswith("install ")}


def try_answers(program, folder):
    """What comes, by the program and by libsolv."""
    write(folder, primary=primary(*PACKAGES))
    (folder / "suse.repo").write_text(convert(folder)[1])
    for what in (program, pathlib.Path(LIBSOLVS)):
        if not what.is_file():
            print(f"skipped: there is no program {what}")
            continue
        for number, (lines, wanted) in enumerate(SCRIPTS):
            script = folder / f"script{number}.t"
            script.write_text("repo suse 0 testtags suse.repo\nsystem x86_64 rpm\n" + lines)
            same(f"{what} on {lines}", come(what, script), wanted)


def main():
    program = pathlib.Path(sys.argv[1]) if len(sys.argv) > 1 else TESTSOLV
    with tempfile.TemporaryDirectory() as name:
        folder = pathlib.Path(name)
        try_forms(folder / "forms")
        try_answers(program, folder / "answers")
    print("as it should be")


if __name__ == "__main__":
    main()
