#!/usr/bin/env python3
"""Makes a folder as `dnf --debugsolver` writes it into one that testsolv reads.

    gachuswi-tools unpack_debugdata FROM TO

FROM has libsolv's script testcase.t and what it names; TO is made, and must not be there yet. Repositories are unpacked. Lines
and words that docs/FORMATS.md does not have are left out, and each kind of them is told once on stderr, with how often it
stood there: first what may change the answer by itself. A conflict with libsolv's `namespace:otherproviders(X)` becomes one
with X, since no package conflicts with itself here, and parentheses that libsolv writes as `\\28` and `\\29` become parentheses
where the name has each with its partner. An expected transaction is kept where libsolv had one; problems, whose numbers are
libsolv's own, are not. An erased package that another one obsoletes is `obsolete` here.

Where anything fails, TO is not left behind: a file that cannot be read or unpacked, two files that would come to one name, or a
script whose jobs ask for something, and none of these is left.
"""
import bz2
import collections
import gzip
import lzma
import pathlib
import re
import shutil
import sys
import zlib

import testtags

UNPACK = {".gz": gzip.decompress, ".bz2": bz2.decompress, ".xz": lzma.decompress, ".lzma": lzma.decompress}
SOLVER_FLAGS = {"allowdowngrade", "allownamechange", "allowarchchange", "allowvendorchange", "allowuninstall", "ignorerecommended", "noinfarchcheck"}
# jobs that ask for something, and jobs that only say how packages are to be taken
ASKING = {"install", "erase", "update", "distupgrade", "verify"}
MARKING = {"lock", "multiversion", "allowuninstall", "favor", "disfavor", "userinstalled", "noop"}
# marks that are not read here
OTHER_MARKS = {"excludefromweak", "blacklist"}
SELECTIONS = {"pkg", "name", "provides", "oneof", "all"}
# the flags of jobs, and where they may stand
JOB_FLAGS = {"forcebest": {"install", "update"}, "cleandeps": {"erase"}}
AS_IT_IS = {"system", "namespace", "disable", "evrcmp"}
# the lines of a transaction
CHANGES = {"install", "erase", "upgrade", "downgrade", "change", "reinstall", "obsolete"}
# an entry of a list, which may stand inline, by itself or in a block
ENTRY = re.compile(rb"((?:#>)?(?:=[A-Z][a-z][a-z]: )?)(.*)", re.DOTALL)
OTHER_PROVIDERS = re.compile(rb"namespace:otherproviders\((.*)\)")
ESCAPED = re.compile(rb"\\([0-9a-f]{2})")


def plain(word):
    """A word with the bytes that libsolv writes as numbers, where it stays one word."""
    made = ESCAPED.sub(lambda match: bytes([int(match[1], 16)]), word)
    depth = 0
    for byte in made:
        depth += (byte == ord("(")) - (byte == ord(")"))
        if depth < 0 or byte in b" \t\r\n\\":
            return word
    return word if depth or made[:1] in b"(<=>!" else made


def plain_line(line):
    return b" ".join(map(plain, line.split(b" "))) if ESCAPED.search(line) else line


class Unpacking:
    """A folder that is unpacked into another one."""

    def __init__(self, source, target):
        self.source, self.target = source, target
        self.decisive, self.others = collections.Counter(), collections.Counter()
        self.written, self.priorities = {}, collections.Counter()
        self.asked = self.kept = 0

    def file(self, name):
        """Unpacks a file that the script names, and gives the name that it has then; it stands under the same path."""
        if name == "<inline>":
            return name
        path = pathlib.PurePosixPath(name)
        if path.is_absolute() or ".." in path.parts:
            raise ValueError(f"{name} stands outside of the folder")
        if path.suffix == ".zst":
            raise ValueError(f"{name} is compressed as .zst, which is not unpacked here: unpack it by zstd -d, and name the other file in testcase.t")
        data = (self.source / path).read_bytes()
        if path.suffix in UNPACK:
            data, path = UNPACK[path.suffix](data), path.with_suffix("")
        made = [made for line in data.split(b"\n") if (made := self.entry(line)) is not None]
        self.write(path, b"\n".join(made), name)
        return str(path)

    def entry(self, line):
        """What a line of a repository becomes: a line, or None where it is left out."""
        if b"\\" not in line and b"namespace:" not in line:
            return line
        head, text = ENTRY.fullmatch(line).groups()
        if b"namespace:splitprovides(" in text:
            self.decisive["that a package comes where a file moved to it (splitprovides)"] += 1
            return None
        if match := OTHER_PROVIDERS.fullmatch(text):
            text = match[1]
        elif b"namespace:otherproviders(" in text:
            self.decisive["other providers (otherproviders) inside of a dependency, which nothing is here"] += 1
        return head + plain_line(text)

    def write(self, path, data, name):
        if self.written.setdefault(str(path), name) != name:
            raise ValueError(f"{name} and {self.written[str(path)]} would both be {path}")
        place = self.target / path
        place.parent.mkdir(parents=True, exist_ok=True)
        place.write_bytes(data)

    def repo(self, words):
        name, priority, kind = words[1:4]
        first, _, second = priority.partition(".")
        self.priorities[second] += 1
        if kind == "testtags" and len(words) == 5:
            return f"repo {name} {first} testtags {self.file(words[4])}"
        if kind != "empty":
            self.decisive[f"the packages of a repository of the type {kind}"] += 1
        return f"repo {name} {first} empty"

    def solverflags(self, words):
        flags = [flag for word in words[1:] for flag in word.split(",") if flag]
        for flag in flags:
            if flag.lstrip("!") not in SOLVER_FLAGS:
                self.others[f"the solver's flag {flag}"] += 1
        known = [flag for flag in flags if flag.lstrip("!") in SOLVER_FLAGS]
        return "solverflags " + " ".join(known) if known else None

    def job(self, words):
        action = words[1]
        self.asked += action not in MARKING | OTHER_MARKS
        flags = words[-1][1:-1].split(",") if words[-1].startswith("[") and words[-1].endswith("]") else []
        rest = words[2:-1] if flags else words[2:]
        if action not in ASKING | MARKING or (rest and rest[0] not in SELECTIONS):
            self.decisive[f"a job {action}" + ("" if action not in ASKING | MARKING else f" {rest[0]}")] += 1
            return None
        self.kept += action in ASKING
        known = [flag for flag in flags if action in JOB_FLAGS.get(flag, ())]
        for flag in flags:
            if flag not in known:
                (self.decisive if flag in ("weak", "targeted") else self.others)[f"the job's flag {flag}"] += 1
        return " ".join(["job", action, *rest, *([f"[{','.join(known)}]"] if known else [])])

    def result(self, words):
        name = words[2]
        path = pathlib.PurePosixPath(name)
        inside = name != "<inline>" and not path.is_absolute() and ".." not in path.parts
        lines = [line for line in (self.source / path).read_text(**testtags.UTF).splitlines() if line.strip()] if inside else []
        if not inside or "transaction" not in words[1].split(",") or any(line.startswith("problem ") for line in lines):
            self.others["the expected lines"] += 1
            return None
        wanted = [self.change(line) for line in lines if line.split()[0] in CHANGES]
        self.write(path, "".join(line + "\n" for line in wanted).encode(**testtags.UTF), name)
        for line in lines:
            if line.split()[0] not in CHANGES:
                self.others[f"an expected line {line.split()[0]}"] += 1
        return f"result transaction,problems {name}"

    @staticmethod
    def change(line):
        words = line.split()
        return "obsolete " + " ".join(words[1:]) if words[0] == "erase" and len(words) == 3 else line

    def line(self, line):
        """What a line of the script becomes: a line, or None where it is left out."""
        if line.startswith("#>"):
            made = self.entry(line.encode(**testtags.UTF))
            return made if made is None else made.decode(**testtags.UTF)
        words = line.split()
        if not words or line.startswith("#"):
            return line
        match words[0]:
            case "repo" if len(words) >= 4:
                return self.repo(words)
            case "solverflags":
                return self.solverflags(words)
            case "job" if len(words) >= 2:
                return self.job([plain(word.encode(**testtags.UTF)).decode(**testtags.UTF) for word in words])
            case "result" if len(words) == 3:
                return self.result(words)
            case word if word in AS_IT_IS:
                return line
        self.others[f"a line {words[0]}"] += 1
        return None

    def tell(self):
        seconds = {second: count for second, count in self.priorities.items() if second}
        if len(self.priorities) > 1:
            self.decisive.update({f"the second part of a priority, {second}": count for second, count in seconds.items()})
        else:
            self.others.update({f"the second part of all priorities, {second}": count for second, count in seconds.items()})
        for counts, note in ((self.decisive, ", which may change the answer"), (self.others, "")):
            for what, count in sorted(counts.items()):
                times = f", {count} times" if count > 1 else ""
                print(f"left out{note}{times}: {what}", file=sys.stderr)

    def run(self):
        lines = (self.source / "testcase.t").read_text(**testtags.UTF).splitlines()
        end = next((n for n, line in enumerate(lines) if line.split()[:1] == ["nextjob"]), len(lines))
        if end < len(lines):
            self.decisive["the rest behind a line nextjob"] += 1
        made = [made for line in lines[:end] if (made := self.line(line)) is not None]
        self.write(pathlib.PurePosixPath("testcase.t"), "".join(line + "\n" for line in made).encode(**testtags.UTF), "testcase.t")
        self.tell()
        if self.asked and not self.kept:
            raise ValueError("no job is left that asks for something")


def main(given):
    if not (given.source / "testcase.t").is_file():
        raise testtags.Fault(f"{given.source}: there is no testcase.t")
    given.target.mkdir(parents=True)
    try:
        Unpacking(given.source, given.target).run()
    except BaseException as error:
        shutil.rmtree(given.target)
        if isinstance(error, (OSError, EOFError, ValueError, lzma.LZMAError, zlib.error)):
            raise testtags.Fault(f"{given.source}: {error}")
        raise
    return 0


if __name__ == "__main__":
    arguments = testtags.arguments(__doc__)
    arguments.add_argument("source", metavar="FROM", type=pathlib.Path)
    arguments.add_argument("target", metavar="TO", type=pathlib.Path)
    testtags.run(main, arguments)
