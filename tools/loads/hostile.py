#!/usr/bin/env python3
"""Makes scripts that are long in one thing each, as a hostile repository may be, and measures what they cost.

    tools/loads/hostile.py KIND [N] > script.t         one script
    tools/loads/hostile.py                             the kinds, each with its usual N
    tools/loads/hostile.py --run OURS PEER [--kinds A,B] [--seconds 60] [--memory 6000] [--twice] [--scale F] [--words=-r]
                                           a table: kind, N, bytes, processor seconds and peak memory of both, status of both

PEER may be `-`: then ours alone is run. With --twice each kind is run at N and at 2 N, and the growth of the seconds stands beside it.
--scale multiplies each N. What is below 20 MB is not told apart: a process counts the memory of the one that it was begun by. A program
that passes the seconds (of the processor) or the memory (address space, in MB) is ended; its row says `time`, or what it ended with.
The first word of a script's kind says what it presses on; the same KIND and N give the same bytes.
"""
import argparse
import os
import resource
import signal
import subprocess
import sys
import tempfile
import time

KINDS = {}


def kind(name, usual, about):
    """Names the generator of a kind, with its usual size."""

    def enter(make):
        KINDS[name] = (make, usual, about)
        return make

    return enter


SYSTEM = "system x86_64 rpm system"
EMPTY = "repo system 0 empty"


def inline(name, priority=0):
    return f"repo {name} {priority} testtags <inline>"


def pkg(name, version="1", release="1", arch="noarch"):
    return f"#>=Pkg: {name} {version} {release} {arch}"


# 1 lists of one package

TAGS = {
    "provides": "Prv",
    "requires": "Req",
    "prerequires": "Prq",
    "conflicts": "Con",
    "obsoletes": "Obs",
    "recommends": "Rec",
    "suggests": "Sug",
    "supplements": "Sup",
    "enhances": "Enh",
}


def listed(tag):
    def make(n):
        yield EMPTY
        yield inline("a")
        yield pkg("p")
        yield f"#>+{tag}:"
        for i in range(n):
            yield f"#>n{i}"
        yield f"#>-{tag}:"
        yield SYSTEM
        yield "job install name q"

    return make


for word, tag in TAGS.items():
    kind(f"list-{word}", 50_000, f"one package with N entries of {tag}")(listed(tag))


@kind("list-files", 50_000, "one package of N files")
def _(n):
    yield EMPTY
    yield inline("a")
    yield pkg("p")
    yield "#>+Fls:"
    for i in range(n):
        yield f"#>/f/{i}"
    yield "#>-Fls:"
    yield SYSTEM
    yield "job install name p"


@kind("list-once", 1_000_000, "one requirement N times in one package")
def _(n):
    yield EMPTY
    yield inline("a")
    yield pkg("p")
    for i in range(n):
        yield "#>=Req: q"
    yield pkg("q")
    yield SYSTEM
    yield "job install name p"


@kind("list-now-pre", 25_000, "N requirements, and then the same as Prq")
def _(n):
    yield EMPTY
    yield inline("a")
    yield pkg("p")
    for tag in ("Req", "Prq"):
        for i in range(n):
            yield f"#>={tag}: n{i}"
    yield SYSTEM
    yield "job install name q"


@kind("list-kernels", 30_000, "ten kernels of N provides, N/136 modules of 300 requirements, an update")
def _(n):
    yield inline("system")
    yield pkg("kernel", "1")
    for i in range(n):
        yield f"#>=Prv: ksym({i}) = {i:x}"
    for m in range(max(1, n // 136)):
        yield pkg(f"module{m}")
        for i in range(300):
            s = (m * 300 + i * 7) % n
            yield f"#>=Req: ksym({s}) = {s:x}"
    yield inline("a")
    for k in range(2, 11):
        yield pkg("kernel", str(k))
        for i in range(n):
            yield f"#>=Prv: ksym({i}) = {i:x}"
    yield SYSTEM
    yield "job update all packages"


@kind("list-same-lists", 400, "N packages of 2,000 provides each, all the same")
def _(n):
    yield EMPTY
    yield inline("a")
    for p in range(n):
        yield pkg(f"p{p}")
        for i in range(2000):
            yield f"#>=Prv: n{i}"
    yield SYSTEM
    yield "job install name p0"


# 2 index and relations


@kind("index-provides-at", 20_000, "N provides of one name at N versions, in N packages, required at as many")
def _(n):
    yield EMPTY
    yield inline("a")
    for i in range(n):
        yield pkg(f"p{i}")
        yield f"#>=Prv: x = {i}"
        yield f"#>=Req: x = {(i * 7 + 1) % n}"
    yield SYSTEM
    yield "job install name p0"


@kind("index-provides-in-one", 20_000, "the same in one package of N provides and one of N requirements")
def _(n):
    yield EMPTY
    yield inline("a")
    yield pkg("p")
    for i in range(n):
        yield f"#>=Prv: x = {i}"
    yield pkg("q")
    for i in range(n):
        yield f"#>=Req: x = {i}"
    yield SYSTEM
    yield "job install name q"


@kind("index-ranges", 10_000, "N provides of one name at N versions, and N packages that require x >= a version each: rows that are ranges")
def _(n):
    yield EMPTY
    yield inline("a")
    for i in range(n):
        yield pkg(f"p{i}")
        yield f"#>=Prv: x = {i}"
    for i in range(n):
        yield pkg(f"q{i}")
        yield f"#>=Req: x >= {i}"
    yield SYSTEM
    yield "job install name q0"


@kind("index-provides-spread", 20_000, "N packages with 20 provides of 140 names at versions, 20 requirements of them")
def _(n):
    yield EMPTY
    yield inline("a")
    for i in range(n):
        yield pkg(f"p{i}")
        for k in range(20):
            yield f"#>=Prv: x{(i + 7 * k) % 140} = {i}"
        yield f"#>=Req: x{i % 140} >= {i // 2}"
    yield SYSTEM
    yield "job install name p0"


@kind("index-one-name", 200_000, "N packages that provide x and require x")
def _(n):
    yield EMPTY
    yield inline("a")
    for i in range(n):
        yield pkg(f"p{i}")
        yield "#>=Prv: x"
        yield "#>=Req: x"
    yield SYSTEM
    yield "job install name p0"


@kind("index-versions", 20_000, "N versions of one name")
def _(n):
    yield EMPTY
    yield inline("a")
    for i in range(n):
        yield pkg("x", str(i))
    yield SYSTEM
    yield "job install name x"


@kind("index-versions-asked", 10_000, "N versions of one name, N packages that require x = version each")
def _(n):
    yield EMPTY
    yield inline("a")
    for i in range(n):
        yield pkg("x", str(i))
    for i in range(n):
        yield pkg(f"q{i}")
        yield f"#>=Req: x = {i}-1"
    yield SYSTEM
    yield "job install name q0"


@kind("index-same-evr", 20_000, "N packages of one name, EVR and architecture")
def _(n):
    yield EMPTY
    yield inline("a")
    for i in range(n):
        yield pkg("x")
    yield SYSTEM
    yield "job install name x"


@kind("index-long-versions", 20, "N versions of 1 MB each, of one name")
def _(n):
    yield EMPTY
    yield inline("a")
    body = "1." * 500_000
    for i in range(n):
        yield pkg("x", body + str(i))
    yield SYSTEM
    yield "job install name x"


@kind("index-long-provides", 300, "N provides of one name at versions of 20 kB that differ at the end, N requirements at them")
def _(n):
    yield EMPTY
    yield inline("a")
    body = "1." * 10_000
    for i in range(n):
        yield pkg(f"p{i}")
        yield f"#>=Prv: x = {body}{i}"
        yield f"#>=Req: x >= {body}{i}"
    yield SYSTEM
    yield "job install name p0"


@kind("index-conflicts-all", 20_000, "N packages that provide x and conflict with x")
def _(n):
    yield EMPTY
    yield inline("a")
    for i in range(n):
        yield pkg(f"p{i}")
        yield "#>=Prv: x"
        yield "#>=Con: x"
    yield SYSTEM
    yield "job install name p0"


@kind("index-conflicts-below", 4_700, "the same, N so small that it is within the limit of words")
def _(n):
    yield from KINDS["index-conflicts-all"][0](n)


@kind("index-obsoletes-all", 5_000, "N packages of one name at N versions, which obsolete the name")
def _(n):
    yield EMPTY
    yield inline("a")
    for i in range(n):
        yield pkg("x", str(i))
        yield "#>=Obs: x"
    yield SYSTEM
    yield "job install name x"


@kind("index-obsoletes-below", 3_800, "the same, N so small that it is within the limit of words")
def _(n):
    yield from KINDS["index-obsoletes-all"][0](n)


@kind("index-obsoletes-names", 20_000, "N installed packages, and 20 that obsolete each of them by its name")
def _(n):
    yield inline("system")
    for i in range(n):
        yield pkg(f"p{i}")
    yield inline("a")
    for i in range(20):
        yield pkg(f"o{i}")
        for k in range(n):
            yield f"#>=Obs: p{k}"
    yield SYSTEM
    yield "job update all packages"


@kind("index-repos", 20_000, "N repositories")
def _(n):
    yield EMPTY
    for i in range(n):
        yield f"repo r{i} 0 empty"
    yield SYSTEM


@kind("index-repos-named", 5_000, "N repositories of a package each, each named by a job")
def _(n):
    yield EMPTY
    for i in range(n):
        yield inline(f"r{i}")
        yield pkg(f"p{i}")
    yield SYSTEM
    for i in range(n):
        yield f"job install pkg p{n - 1 - i}-1-1.noarch@r{n - 1 - i}"


@kind("index-namespaces", 20_000, "N namespaces of a package each")
def _(n):
    yield EMPTY
    yield inline("a")
    yield pkg("p")
    yield SYSTEM
    for i in range(n):
        yield f"namespace namespace:language(l{i}) p-1-1.noarch@a"


@kind("index-namespace-lines", 20_000, "N lines of one namespace, a package each")
def _(n):
    yield EMPTY
    yield inline("a")
    for i in range(n):
        yield pkg(f"p{i}")
    yield pkg("q")
    yield "#>=Req: namespace:language(de)"
    yield SYSTEM
    for i in range(n):
        yield f"namespace namespace:language(de) p{i}-1-1.noarch@a"
    yield "job install name q"


@kind("index-namespace-of-all", 100_000, "one namespace of N packages")
def _(n):
    yield EMPTY
    yield inline("a")
    for i in range(n):
        yield pkg(f"p{i}")
    yield pkg("q")
    yield "#>=Req: namespace:language(de)"
    yield SYSTEM
    yield "namespace namespace:language(de) " + " ".join(f"p{i}-1-1.noarch@a" for i in range(n))
    yield "job install name q"


@kind("index-disable", 100_000, "N packages, each named by a disable line")
def _(n):
    yield EMPTY
    yield inline("a")
    for i in range(n):
        yield pkg(f"p{i}")
    yield SYSTEM
    for i in range(n):
        yield f"disable pkg p{i}-1-1.noarch@a"


@kind("index-disable-one-name", 5_000, "N versions of one name, each named by a disable line")
def _(n):
    yield EMPTY
    yield inline("a")
    for i in range(n):
        yield pkg("x", str(i))
    yield SYSTEM
    for i in range(n):
        yield f"disable pkg x-{i}-1.noarch@a"


@kind("index-disable-between", 2_000, "20,000 packages, and N times a repository and a disable line")
def _(n):
    yield EMPTY
    yield inline("a")
    for i in range(20_000):
        yield pkg(f"p{i}")
    yield SYSTEM
    for i in range(n):
        yield f"repo r{i} 0 empty"
        yield f"disable pkg p{i}-1-1.noarch@a"


@kind("index-absent-text", 2_000, "20,000 packages, N disable lines, and one whose package is not there: refused")
def _(n):
    yield EMPTY
    yield inline("a")
    for i in range(20_000):
        yield pkg(f"p{i}")
    yield SYSTEM
    for i in range(n):
        yield f"disable pkg p{i}-1-1.noarch@a"
    yield "disable pkg absent-1-1.noarch@a"


# 5 hashing: a block whose second half is the multiplier is multiplied by nothing, so what stood before it is forgotten

STOP = bytes.fromhex("157c4a7fb979379e").decode("latin-1")


@kind("hash-names", 20_000, "N names of one hash")
def _(n):
    yield EMPTY
    yield inline("a")
    yield pkg("p")
    yield "#>+Prv:"
    for i in range(n):
        yield f"#>{i:08x}{STOP}{'z' * 16}"
    yield "#>-Prv:"
    yield SYSTEM
    yield "job install name p"


@kind("hash-other-names", 20_000, "the same of names of as many bytes whose hashes differ")
def _(n):
    yield EMPTY
    yield inline("a")
    yield pkg("p")
    yield "#>+Prv:"
    for i in range(n):
        yield f"#>{i:08x}{'y' * 8}{'z' * 16}"
    yield "#>-Prv:"
    yield SYSTEM
    yield "job install name p"


@kind("hash-packages", 20_000, "N packages whose names have one hash, each found by a job")
def _(n):
    yield EMPTY
    yield inline("a")
    for i in range(n):
        yield pkg(f"{i:08x}{STOP}{'z' * 16}")
    yield SYSTEM
    yield "job install name p"


# dependencies that are rich


def rich(n, text, names=0, extra=()):
    yield EMPTY
    yield inline("a")
    for i in range(n):
        yield pkg(f"p{i}")
        yield f"#>=Req: {text(i)}"
    for i in range(names):
        yield pkg(f"x{i}")
    yield from extra
    yield SYSTEM
    yield "job install name p0"


@kind("rich-any-of-64", 20_000, "N packages that require any of 64 names, each of which all of them provide")
def _(n):
    yield EMPTY
    yield inline("a")
    any_of = " | ".join(f"x{k}" for k in range(64))
    for i in range(n):
        yield pkg(f"p{i}")
        for k in range(64):
            yield f"#>=Prv: x{k}"
        yield f"#>=Req: {any_of}"
    yield SYSTEM
    yield "job install name p0"


@kind("rich-any-texts", 100_000, "N requirements of any of 64 names each, all texts different")
def _(n):
    yield from rich(n, lambda i: " | ".join(f"x{(i * 31 + k * k) % 1000}" for k in range(64)), 1000)


@kind("rich-any-wide", 1_000, "1,000 names that 2,000 packages provide each; N requirements of any of 64")
def _(n):
    yield EMPTY
    yield inline("a")
    for i in range(2000):
        yield pkg(f"p{i}")
        for k in range(100):
            yield f"#>=Prv: x{k}"
    for i in range(n):
        yield pkg(f"q{i}")
        yield "#>=Req: " + " | ".join(f"x{(i * 7 + k * (1 + i % 13)) % 100}" for k in range(64))
    yield SYSTEM
    yield "job install name q0"


@kind("rich-all-of-64", 50_000, "N requirements of all of 64 names each")
def _(n):
    yield from rich(n, lambda i: " & ".join(f"x{(i * 31 + k * k) % 1000}" for k in range(64)), 1000)


@kind("rich-with", 20_000, "N requirements of 64 names at once by `+`, of names that 100 packages provide")
def _(n):
    def provided():
        for i in range(100):
            yield pkg(f"y{i}")
            for k in range(64):
                yield f"#>=Prv: w{k}"

    yield from rich(n, lambda i: " + ".join(f"w{(i + k) % 64}" for k in range(64)), 0, provided())


@kind("rich-conditions-nested", 20_000, "N requirements with conditions nested 60 deep")
def _(n):
    def text(i):
        t = f"x{i % 1000}"
        for k in range(60):
            t = f"({t}) <IF> x{(i * 7 + k) % 1000}" if k else f"{t} <IF> x{(i * 7) % 1000}"
        return t

    yield from rich(n, text, 1000)


@kind("rich-else-chain", 2_000, "N requirements with conditions and <ELSE> nested 15 deep: 2 ** 15 clauses each")
def _(n):
    def text(i):
        t = f"x{i % 1000}"
        for k in range(15):
            t = f"x{(i + k) % 1000} <IF> x{(i * 7 + k) % 1000} <ELSE> ({t})"
        return t

    yield from rich(n, text, 1000)


@kind("rich-sixteen-terms", 1_000, "N requirements of 65,536 clauses each, which is the limit")
def _(n):
    yield from rich(n, lambda i: " | ".join(f"(x{(i + 2 * k) % 1000} & x{(i + 2 * k + 1) % 1000})" for k in range(16)), 1000)


@kind("rich-sixteen-recommended", 1_000, "the same, recommended, which has no limit")
def _(n):
    yield EMPTY
    yield inline("a")
    for i in range(n):
        yield pkg(f"p{i}")
        yield f"#>=Rec: {' | '.join(f'(x{(i + 2 * k) % 1000} & x{(i + 2 * k + 1) % 1000})' for k in range(21))}"
    for i in range(1000):
        yield pkg(f"x{i}")
    yield SYSTEM
    for i in range(n):
        yield f"job install name p{i}"


@kind("rich-conflicts", 20_000, "N packages that conflict with 32 names at once, which is one clause")
def _(n):
    yield EMPTY
    yield inline("a")
    for i in range(n):
        yield pkg(f"p{i}")
        yield "#>=Con: " + " & ".join(f"x{(i * 31 + k * k) % 1000}" for k in range(32))
    for i in range(1000):
        yield pkg(f"x{i}")
    yield SYSTEM
    yield "job install name p0"


@kind("rich-conflicts-product", 100, "N packages that conflict with x & y, each provided by 256 packages: 65,536 clauses each")
def _(n):
    yield EMPTY
    yield inline("a")
    for i in range(n):
        yield pkg(f"p{i}")
        yield "#>=Con: x & y"
    for i in range(256):
        yield pkg(f"x{i}")
        yield "#>=Prv: x"
        yield pkg(f"y{i}")
        yield "#>=Prv: y"
    yield SYSTEM
    yield "job install name p0"


@kind("rich-parentheses", 100_000, "N requirements in 64 parentheses")
def _(n):
    yield from rich(n, lambda i: "(" * 64 + f"x{i % 1000}" + ")" * 64, 1000)


# 4 chains, derivations, sets


@kind("chain-erase", 5_000, "N installed packages, each requires the next, the last is erased")
def _(n):
    yield inline("system")
    for i in range(n):
        yield pkg(f"p{i}")
        if i + 1 < n:
            yield f"#>=Req: p{i + 1}"
    yield SYSTEM
    yield f"job erase name p{n - 1}"


@kind("chain-erase-allowed", 20_000, "the same with the flag allowuninstall")
def _(n):
    yield from list(KINDS["chain-erase"][0](n))[:-1]
    yield "solverflags allowuninstall"
    yield f"job erase name p{n - 1}"


@kind("chain-clean", 20_000, "the same, the first is erased with cleandeps")
def _(n):
    yield from list(KINDS["chain-erase"][0](n))[:-1]
    yield "job erase name p0 [cleandeps]"


@kind("chain-requires", 300_000, "a chain of N requirements, the first is installed")
def _(n):
    yield EMPTY
    yield inline("a")
    for i in range(n):
        yield pkg(f"p{i}")
        yield f"#>=Req: p{i + 1}"
    yield pkg(f"p{n}")
    yield SYSTEM
    yield "job install name p0"


@kind("chain-requires-broken", 20_000, "a chain of N requirements, of which the last is met by nobody")
def _(n):
    yield EMPTY
    yield inline("a")
    for i in range(n):
        yield pkg(f"p{i}")
        yield f"#>=Req: p{i + 1}"
    yield SYSTEM
    yield "job install name p0"


@kind("chain-recommends", 20_000, "a chain of N recommendations")
def _(n):
    yield EMPTY
    yield inline("a")
    for i in range(n):
        yield pkg(f"p{i}")
        yield f"#>=Rec: p{i + 1}"
    yield SYSTEM
    yield "job install name p0"


@kind("chain-supplements", 10_000, "a chain of N supplements, the first is installed")
def _(n):
    yield EMPTY
    yield inline("a")
    yield pkg("p0")
    for i in range(n):
        yield pkg(f"p{i + 1}")
        yield f"#>=Sup: p{i}"
    yield SYSTEM
    yield "job install name p0"


@kind("chain-supplements-down", 10_000, "the same with the numbers falling")
def _(n):
    yield EMPTY
    yield inline("a")
    for i in range(n, 0, -1):
        yield pkg(f"p{i}")
        yield f"#>=Sup: p{i - 1}"
    yield pkg("p0")
    yield SYSTEM
    yield "job install name p0"


@kind("chain-update", 20_000, "N installed packages that require the next at their own version, all updated but the last cannot")
def _(n):
    yield inline("system")
    for i in range(n):
        yield pkg(f"p{i}")
        yield f"#>=Req: p{i + 1} = 1-1" if i + 1 < n else "#>=Prv: last"
    yield inline("a")
    for i in range(n - 1):
        yield pkg(f"p{i}", "2")
        yield f"#>=Req: p{i + 1} = 2-1"
    yield SYSTEM
    yield "job update all packages"


@kind("chain-cycle", 100_000, "N packages in one cycle of requirements")
def _(n):
    yield EMPTY
    yield inline("a")
    for i in range(n):
        yield pkg(f"p{i}")
        yield f"#>=Req: p{(i + 1) % n}"
    yield SYSTEM
    yield "job install name p0"


@kind("chain-order-full", 2_000, "N packages that require all the N before them")
def _(n):
    yield EMPTY
    yield inline("a")
    for i in range(n):
        yield pkg(f"p{i}")
        yield "#>=Prv: x"
        yield "#>=Req: x"
    yield SYSTEM
    for i in range(n):
        yield f"job install name p{i}"


@kind("problems-pigeons", 8, "N packages that want a place of their own, in N - 1 places")
def _(m):
    yield EMPTY
    yield inline("a")
    for p in range(m):
        yield pkg(f"pigeon{p}")
        yield f"#>=Req: in{p}"
    for p in range(m):
        for h in range(m - 1):
            yield pkg(f"s{p}h{h}")
            yield f"#>=Prv: in{p}"
            yield f"#>=Prv: hole{h} = {p}"
            for q in range(m):
                if q != p:
                    yield f"#>=Con: hole{h} = {q}"
    yield SYSTEM
    for p in range(m):
        yield f"job install name pigeon{p}"


@kind("problems-absent", 20_000, "N jobs that install what is not there")
def _(n):
    yield EMPTY
    yield SYSTEM
    for i in range(n):
        yield f"job install name q{i}"


@kind("problems-pairs", 2_000, "N pairs of jobs that conflict")
def _(n):
    yield EMPTY
    yield inline("a")
    for i in range(n):
        yield pkg(f"p{i}")
        yield f"#>=Con: q{i}"
        yield pkg(f"q{i}")
    yield SYSTEM
    for i in range(n):
        yield f"job install name p{i}"
        yield f"job install name q{i}"


@kind("problems-one-of-many", 2_000, "N jobs of which each two conflict")
def _(n):
    yield EMPTY
    yield inline("a")
    for i in range(n):
        yield pkg(f"p{i}")
        yield "#>=Prv: x"
        yield "#>=Con: x"
    yield SYSTEM
    for i in range(n):
        yield f"job install name p{i}"


# jobs


@kind("jobs-one-name", 2_000, "N jobs over one name of N providers")
def _(n):
    yield EMPTY
    yield inline("a")
    for i in range(n):
        yield pkg(f"p{i}")
        yield "#>=Prv: x"
    yield SYSTEM
    for i in range(n):
        yield "job install provides x"


@kind("jobs-one-name-many", 20_000, "the same, so many that the words pass the limit")
def _(n):
    yield from KINDS["jobs-one-name"][0](n)


@kind("jobs-forcebest", 1_000, "N forcebest jobs over N packages")
def _(n):
    yield EMPTY
    yield inline("a")
    for i in range(n):
        yield pkg(f"p{i}")
        yield "#>=Prv: x"
    yield SYSTEM
    for i in range(n):
        yield "job install provides x [forcebest]"


@kind("jobs-forcebest-update", 100, "N jobs that update all of 3,000 packages with forcebest")
def _(n):
    yield inline("system")
    for i in range(3000):
        yield pkg(f"p{i}")
    yield inline("a")
    for i in range(3000):
        yield pkg(f"p{i}", "2")
    yield SYSTEM
    for i in range(n):
        yield "job update all packages [forcebest]"


def of_all(action, packages, flags=""):
    def make(n):
        yield inline("system")
        for i in range(packages // 2):
            yield pkg(f"p{i}")
        yield inline("a")
        for i in range(packages // 2):
            yield pkg(f"p{i}", "2")
        yield SYSTEM
        for i in range(n):
            yield f"job {action} all packages{flags}"

    return make


for action in ("update", "verify", "lock", "favor", "disfavor", "multiversion", "allowuninstall"):
    kind(f"jobs-all-{action}", 1_000, f"N jobs `{action} all packages` over 20,000 packages")(of_all(action, 20_000))
kind("jobs-all-install", 1_000, "N jobs `install all packages` over 20,000 packages")(of_all("install", 20_000))
kind("jobs-all-erase", 1_000, "N jobs `erase all packages` over 20,000 packages")(of_all("erase", 20_000))


@kind("jobs-oneof", 100_000, "one job over N packages by their texts")
def _(n):
    yield EMPTY
    yield inline("a")
    for i in range(n):
        yield pkg(f"p{i}")
    yield SYSTEM
    yield "job install oneof " + " ".join(f"p{i}-1-1.noarch@a" for i in range(n))


@kind("jobs-noop", 1_000_000, "N jobs noop")
def _(n):
    yield EMPTY
    yield SYSTEM
    for i in range(n):
        yield "job noop"


@kind("jobs-install", 20_000, "N jobs that install a package each")
def _(n):
    yield EMPTY
    yield inline("a")
    for i in range(n):
        yield pkg(f"p{i}")
    yield SYSTEM
    for i in range(n):
        yield f"job install name p{i}"


@kind("jobs-versions-pkg", 5_000, "N versions of one name, each named by a job `favor pkg`")
def _(n):
    yield EMPTY
    yield inline("a")
    for i in range(n):
        yield pkg("x", str(i))
    yield SYSTEM
    for i in range(n):
        yield f"job favor pkg x-{i}-1.noarch@a"


# rounds


@kind("rounds", 1_000, "N rounds of a job each over 20,000 packages")
def _(n):
    yield EMPTY
    yield inline("a")
    for i in range(20_000):
        yield pkg(f"p{i}")
    yield SYSTEM
    for i in range(n):
        yield f"job install name p{i}"
        if i + 1 < n:
            yield "nextjob"


@kind("rounds-empty", 100_000, "N rounds of nothing over no packages")
def _(n):
    yield EMPTY
    yield SYSTEM
    for i in range(n):
        yield "nextjob"


@kind("rounds-installed", 300, "N rounds without a job over 20,000 installed packages")
def _(n):
    yield inline("system")
    for i in range(20_000):
        yield pkg(f"p{i}")
    yield SYSTEM
    for i in range(n):
        yield "nextjob"


# lines and words


@kind("words-vendor", 60_000_000, "one vendor of N bytes")
def _(n):
    yield EMPTY
    yield inline("a")
    yield pkg("p")
    yield "#>=Vnd: " + "v" * n
    yield SYSTEM
    yield "job install name p"


@kind("words-vendors", 200_000, "N packages with a vendor of 200 bytes each")
def _(n):
    yield EMPTY
    yield inline("a")
    for i in range(n):
        yield pkg(f"p{i}")
        yield f"#>=Vnd: {i:0200}"
    yield SYSTEM
    yield "job install name p0"


@kind("words-vendor-lines", 4_000_000, "one package of N vendor lines")
def _(n):
    yield EMPTY
    yield inline("a")
    yield pkg("p")
    for i in range(n):
        yield f"#>=Vnd: {i}"
    yield SYSTEM
    yield "job install name p"


@kind("words-name", 60_000_000, "one name of N bytes")
def _(n):
    yield EMPTY
    yield inline("a")
    yield pkg("p")
    yield "#>=Req: " + "x" * n
    yield SYSTEM
    yield "job install name p"


@kind("words-job", 15_000_000, "a job that selects a name of N bytes that nobody has, printed three times")
def _(n):
    yield EMPTY
    yield SYSTEM
    yield "job install name " + "x" * n


@kind("words-evr", 60_000_000, "one version of N bytes, compared with itself but one byte")
def _(n):
    body = "1." * (n // 4)
    yield EMPTY
    yield f"evrcmp {body}1 < {body}2"


@kind("words-evrcmp", 2_000_000, "N lines evrcmp")
def _(n):
    yield EMPTY
    for i in range(n):
        yield f"evrcmp {i} < {i + 1}"


@kind("words-flags", 2_000_000, "N lines solverflags")
def _(n):
    yield EMPTY
    for i in range(n):
        yield "solverflags !allowuninstall"


@kind("words-flags-line", 4_000_000, "one line with N flags")
def _(n):
    yield EMPTY
    yield "solverflags " + ",".join(["!allowuninstall"] * n)


@kind("words-comments", 30_000_000, "N comments")
def _(n):
    yield EMPTY
    for i in range(n):
        yield "#"


@kind("words-unknown-tags", 8_000_000, "N lines of tags that are passed over")
def _(n):
    yield EMPTY
    yield inline("a")
    yield pkg("p")
    for i in range(n):
        yield "#>=Xyz:"
    yield SYSTEM


@kind("words-expected", 2_000_000, "N expected lines, none of which comes")
def _(n):
    yield EMPTY
    yield SYSTEM
    yield "result transaction,problems <inline>"
    for i in range(n):
        yield f"#>install p{i}-1-1.noarch@a"


@kind("words-expected-same", 20_000, "N expected lines that come, in another order")
def _(n):
    yield EMPTY
    yield inline("a")
    for i in range(n):
        yield pkg(f"p{i}")
    yield SYSTEM
    for i in range(n):
        yield f"job install name p{i}"
    yield "result transaction,problems <inline>"
    for i in range(n):
        yield f"#>install p{n - 1 - i}-1-1.noarch@a"


@kind("words-packages", 1_048_575, "N packages, which is the limit")
def _(n):
    yield EMPTY
    yield inline("a")
    for i in range(n):
        yield pkg(f"p{i}")
    yield SYSTEM
    yield "job install name p0"


def write(name, n, out):
    """Writes the script of a kind."""
    make, usual, _ = KINDS[name]
    part, size = [], 0
    for line in make(n or usual):
        part.append(line)
        size += len(line) + 1
        if size > 1 << 20:
            out.write(("\n".join(part) + "\n").encode("latin-1"))
            part, size = [], 0
    out.write(("\n".join(part) + "\n").encode("latin-1"))


def measure(words, seconds, memory):
    """Runs a program: processor seconds, peak memory in MB, how it ended, and what stands first on the error stream."""

    def limits():
        resource.setrlimit(resource.RLIMIT_AS, (memory << 20, memory << 20))
        resource.setrlimit(resource.RLIMIT_CPU, (seconds, seconds + 1))
        resource.setrlimit(resource.RLIMIT_CORE, (0, 0))

    with tempfile.TemporaryFile() as err:
        running = subprocess.Popen(words, stdin=subprocess.DEVNULL, stdout=subprocess.DEVNULL, stderr=err, preexec_fn=limits)
        deadline = time.monotonic() + 4 * seconds + 5
        while True:
            pid, status, used = os.wait4(running.pid, os.WNOHANG)
            if pid:
                break
            if time.monotonic() > deadline:
                running.kill()
            time.sleep(0.005)
        running.returncode = 0
        err.seek(0)
        first = err.read(4000).decode(errors="replace").strip().split("\n")[-1][-70:]
    if os.WIFSIGNALED(status):
        number = os.WTERMSIG(status)
        ended = "time" if number in (signal.SIGXCPU, signal.SIGKILL) else signal.Signals(number).name
    else:
        ended = str(os.WEXITSTATUS(status))
    return used.ru_utime + used.ru_stime, used.ru_maxrss / 1024, ended, first


def run(a):
    ours, peer = a.run
    names = a.kinds.split(",") if a.kinds else list(KINDS)
    names = [k for word in names for k in KINDS if k == word or (word.endswith("*") and k.startswith(word[:-1]))]
    print("| kind | N | bytes | ours s | MB | status | libsolv s | MB | status | growth, ours and libsolv's |")
    print("|---|---|---|---|---|---|---|---|---|---|")
    for name in names:
        before = None
        for times in (1, 2) if a.twice else (1,):
            n = max(1, int(KINDS[name][1] * a.scale)) * times
            with tempfile.NamedTemporaryFile(suffix=".t") as script:
                write(name, n, script)
                script.flush()
                size = os.path.getsize(script.name)
                got = measure([ours, *a.words.split(), script.name], a.seconds, a.memory)
                other = measure([peer, *a.words.split(), script.name], a.seconds, a.memory) if peer != "-" else (0, 0, "-", "")
            growth = ""
            if before:
                growth = " and ".join("-" if old < 0.005 else f"{new / old:.1f}" for new, old in zip((got[0], other[0]), before))
            before = (got[0], other[0])
            why = f" {got[3].split(': ')[-1]}" if got[2] == "2" else ""
            print(
                f"| {name} | {n:,} | {size:,} | {got[0]:.2f} | {got[1]:,.0f} | {got[2]}{why} | {other[0]:.2f} | {other[1]:,.0f} | {other[2]} | {growth} |",
                flush=True,
            )


def main():
    if len(sys.argv) == 1:
        print(__doc__)
        for name, (_, usual, about) in KINDS.items():
            print(f"    {name:26} {usual:>11,}  {about}")
        return
    if not sys.argv[1].startswith("-"):
        if sys.argv[1] not in KINDS:
            sys.exit(f"no kind {sys.argv[1]}")
        write(sys.argv[1], int(sys.argv[2]) if len(sys.argv) > 2 else 0, sys.stdout.buffer)
        return
    p = argparse.ArgumentParser(description=__doc__, formatter_class=argparse.RawDescriptionHelpFormatter)
    p.add_argument("--run", nargs=2, metavar=("OURS", "PEER"), required=True)
    p.add_argument("--kinds", default="")
    p.add_argument("--seconds", type=int, default=60)
    p.add_argument("--memory", type=int, default=6000)
    p.add_argument("--scale", type=float, default=1)
    p.add_argument("--twice", action="store_true")
    p.add_argument("--words", default="-r")
    run(p.parse_args())


if __name__ == "__main__":
    main()
