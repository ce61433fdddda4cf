#!/usr/bin/env python3
"""Writes a script of installed packages for cleaning: what goes with one that is erased, because nobody needs it any more.

Usage: make_clean.py [PACKAGES] [chain | requires | supplements] [plain] > clean.t

- chain (where nothing is said): five of six packages are a chain, each of which needs the next, most by a requirement on
  what it provides, every seventh by the next one's supplement; every tenth recommends a package of the others. These are
  a tree below one that the user asked for, in which each requires two others. All require `libc`. The head of the chain is
  erased, and with the flag the whole chain goes.
- requires: all packages require one name that all provide. The first is erased, and the user asked for the second.
- supplements: all supplement one name that all provide, with the same jobs.

The erase job has the flag `cleandeps`, and with `plain` it has not. The same words give the same script. Both programs read it:

    tools/loads/make_clean.py 60000 > clean.t
    python3 -c 'import resource, subprocess, sys; subprocess.run(sys.argv[1:], stdout=subprocess.DEVNULL)
    used = resource.getrusage(resource.RUSAGE_CHILDREN); print(used.ru_utime + used.ru_stime, "s,", used.ru_maxrss // 1024, "MB")' \\
        crates/testsolv/out/testsolv -r clean.t

where the second program is libsolv's `testsolv -r clean.t` (package libsolv-tools). Both print an `erase` line for each package
that goes: five of six with the flag in the first form, and else one.
"""
import sys


def chain_lines(packages):
    chain = packages * 5 // 6
    tree = packages - chain - 1
    yield "=Pkg: libc 1 1 noarch"
    for number in range(chain):
        yield f"=Pkg: chain-{number:06d} 1 1 noarch"
        yield f"=Prv: link-{number:06d} = 1"
        yield "=Req: libc"
        if number + 1 < chain and (number + 1) % 7:
            yield f"=Req: link-{number + 1:06d}"
        if number % 10 == 0 and tree:
            yield f"=Rec: tree-{number % tree:06d}"
        if number and number % 7 == 0:
            yield f"=Sup: chain-{number - 1:06d}"
    for number in range(tree):
        yield f"=Pkg: tree-{number:06d} 1 1 noarch"
        yield "=Req: libc"
        for child in (2 * number + 1, 2 * number + 2):
            if child < tree:
                yield f"=Req: tree-{child:06d}"


def wide_lines(packages, tag):
    for number in range(packages):
        yield f"=Pkg: wide-{number:06d} 1 1 noarch"
        yield "=Prv: wide"
        yield f"={tag}: wide"


def main():
    words = sys.argv[1:]
    packages = int(next((word for word in words if word.isdigit()), 60_000))
    if "requires" in words:
        lines, asked, erased = wide_lines(packages, "Req"), "wide-000001", "wide-000000"
    elif "supplements" in words:
        lines, asked, erased = wide_lines(packages, "Sup"), "wide-000001", "wide-000000"
    else:
        lines, asked, erased = chain_lines(packages), "tree-000000", "chain-000000"
    write = sys.stdout.write
    write("repo system 0 testtags <inline>\n")
    for line in lines:
        write(f"#>{line}\n")
    flag = "" if "plain" in words else " [cleandeps]"
    write("system x86_64 rpm system\n")
    write(f"job userinstalled name {asked}\njob erase name {erased}{flag}\n")


if __name__ == "__main__":
    main()
