#!/usr/bin/env python3
"""Checks or builds one crate over the libraries that a gate left in another clone.

    tools/over.py check CRATE CLONE [rattle's flags]     as `rt check` in the crate's folder, in seconds after the first time
    tools/over.py library CRATE CLONE [rattle's flags]   builds its library in the place of CLONE's, from what a check kept where there is such
    tools/over.py program CRATE CLONE FILE               builds the program as LLVM makes it
    tools/over.py archive CRATE CLONE FILE [rattle's flags]   builds the static library, as LLVM makes it or, by `--backend rattle`, Rattle's own compiler

CLONE is another clone of this repository in which `rt ci` ran: it leaves the library of each crate that it proved in
crates/NAME/out/rlib. A crate is taken from the repository in the current folder, so that one proof can be worked on while the
other clone's gate goes on with what is below. A library that has changed has to be built before the crates above it are
looked at, in the order of crates.txt's layers; copy CLONE's folders `out/rlib` first, where its gate may go on to use them. What
was checked is kept in out/over beside the crate. None of it is a verdict: that is the gate's alone.

`check` reads a crate below from its sources in the current folder where CLONE has no library of it, and those named in the
variable SOURCES (by blanks). Then only contracts count below: say by `--only FUNCTION` or `--only MODULE` what is to be proved,
or else the functions of these crates are proved too. So a crate can be checked before what is below it is proved.
"""
import os
import pathlib
import subprocess
import sys

KIT = pathlib.Path(os.path.realpath(subprocess.run(["which", "rt"], capture_output=True, text=True).stdout.strip())).parent.parent
RATTLE = KIT / "bin" / "rattle"


def libraries():
    """The libraries of each crate, as crates.txt lists them."""
    made = {}
    for line in pathlib.Path("crates.txt").read_text().splitlines():
        line = line.partition("#")[0].strip()
        if line:
            name, _, uses = line.partition(":")
            made[name.split()[0]] = uses.split()
    return made


def below(name, uses, seen):
    """The repository's libraries below a crate, the lowest first."""
    for lower in uses[name]:
        if lower in uses and lower not in seen:
            below(lower, uses, seen)
            seen.append(lower)
    return seen


def built(names, uses, clone):
    """Those of the crates, the lowest first, of which CLONE has a library over libraries."""
    sources, made = os.environ.get("SOURCES", "").split(), set()
    for name in names:
        lower = [other for other in uses[name] if other in uses]
        if name not in sources and all(other in made for other in lower) and pathlib.Path(clone, f"crates/{name}/out/rlib/{name}.rlib").exists():
            made.add(name)
    return made


def words(command, crate, clone):
    """The words of a call of rattle."""
    uses = libraries()
    names = below(crate, uses, [])
    made = built(names, uses, clone) if command == "check" else set(names)
    folder = pathlib.Path("crates", crate)
    root = "src/main.rt" if (folder / "src/main.rt").exists() else "src/lib.rt"
    said = [RATTLE, command, "--crate-name", crate, root, "--extern", f"std={KIT}/rlibs/std.rlib", "-L", f"dependency={KIT}/rlibs"]
    read = [name for name in names if name not in made]
    # a crate that is read from its sources wants all that it names, and else the crate alone does
    for name in names if read else [other for other in uses[crate] if other in uses]:
        place = f"{clone}/crates/{name}/out/rlib/{name}.rlib"
        said += ["--lib", f"{name}={os.path.abspath(f'crates/{name}/src/lib.rt')}"] if name in read else ["--extern", f"{name}={place}"]
    for name in sorted({port for user in [crate, *read] for port in uses[user] if port not in uses}):
        said += ["--extern", f"{name}={KIT}/rlibs/{name}.rlib"]
    for name in names:
        if name in made:
            said += ["-L", f"dependency={clone}/crates/{name}/out/rlib"]
    said += ["--antt-project", f"{KIT}/rattle/logic/antt-project.json", "--logic-built", f"{KIT}/logic_built", "--links", f"{crate}="]
    return folder, said


def call(folder, said):
    return subprocess.call([str(word) for word in said], cwd=folder)


def main():
    if len(sys.argv) < 4 or sys.argv[1] not in ("check", "library", "program", "archive"):
        sys.exit(__doc__)
    kind, crate, clone, rest = sys.argv[1], sys.argv[2], os.path.realpath(sys.argv[3]), sys.argv[4:]
    folder, said = words("check" if kind == "check" else "build", crate, clone)
    if kind == "check":
        kept = folder / "out/over"
        kept.mkdir(parents=True, exist_ok=True)
        sys.exit(call(folder, [*said, "--incremental", "out/over", "--progress", *rest]))
    if kind == "library":
        place = pathlib.Path(clone, "crates", crate, "out/rlib")
        place.mkdir(parents=True, exist_ok=True)
        how = ["--incremental", "out/over"] if (folder / "out/over").exists() else ["--statements"]
        sys.exit(call(folder, [*said, *how, "-o", place / f"{crate}.rlib", *rest]))
    out = os.path.realpath(rest[0])
    if kind == "archive":
        (folder / "out/over").mkdir(parents=True, exist_ok=True)
        how = ["--incremental", "out/over", "--crate-type", "staticlib", "--toolchain", f"{KIT}/toolchain"]
        backend = [] if "--backend" in rest else ["--backend", "llvm"]
        sys.exit(call(folder, [*said, *how, *backend, "-o", out, *rest[1:]]))
    status = call(folder, [*said, "--toolchain", f"{KIT}/toolchain", "--backend", "llvm", "-o", f"{out}.o"])
    link = [KIT / "bin/rattle-link", "--target", "x86_64-unknown-linux-gnu", "--toolchain", f"{KIT}/toolchain", "-o", out, f"{out}.o"]
    sys.exit(status or call(".", [*link, KIT / "c/libos_c.a", KIT / "c/liblibc_c.a"]))


main()
