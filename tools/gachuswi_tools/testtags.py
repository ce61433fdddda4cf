"""Repositories in testtags format (docs/FORMATS.md), for the tools that write and read them."""
import argparse
import bz2
import collections
import contextlib
import gzip
import lzma
import os
import pathlib
import re
import shlex
import shutil
import subprocess
import sys
import tempfile
import textwrap
import threading
import time
import traceback
import zlib

import suse
from dependencies import BLANKS, PLAIN, evr_text, file_names, unfit, with_signs

# the lines of a package that have to be looked at
ODD_LINES = re.compile(rf"^(?!=Fls: |=[A-Z][a-z][a-z]: {PLAIN}\n).*\n", re.MULTILINE)
ASKING = ("=Req:", "=Prq:", "=Con:", "=Rec:", "=Sug:", "=Sup:", "=Enh:")
# so many bytes has a repository that testsolv reads at most, and a part to which no more packages are added
LIMIT, FULL = 67_108_864, 60_000_000
# texts are taken byte by byte, also where they are no UTF-8
UTF = {"encoding": "utf-8", "errors": "surrogateescape"}
ORIGIN = re.compile(r"# (?:rpmmd|rpmdb)_to_testtags\.py (.* --with.*)\n")
WORDS, EPOCH = re.compile(f"[^{BLANKS}]+"), re.compile("[0-9]*")
Package = collections.namedtuple("Package", "name evr arch vendor")


class Fault(ValueError):
    """What is wrong, in one line: FILE:LINE: cause."""


def run(main, arguments):
    """Runs a tool's main function, and ends with its status, or with 2 and one line where something is wrong, whatever it is."""
    for stream in (sys.stdout, sys.stderr):
        stream.reconfigure(**UTF)
    try:
        try:
            status = main(arguments.parse_args())
            sys.stdout.flush()
        finally:
            if Progress.shown:
                Progress.shown.end()
    except KeyboardInterrupt:
        status = 130
    except BrokenPipeError:
        # (who reads no further is told nothing)
        os.dup2(os.open(os.devnull, os.O_WRONLY), sys.stdout.fileno())
        status = 2
    except Exception as error:
        print(cause_of(error), file=sys.stderr)
        status = 2
    sys.exit(status)


def cause_of(error):
    """What is wrong, in one line; of a fault of the tool itself where it came to light."""
    if isinstance(error, Fault):
        return str(error)
    if isinstance(error, OSError):
        return f"{error.filename}: {error.strerror}" if error.filename else str(error)
    place = traceback.extract_tb(error.__traceback__)[-1]
    return f"a fault of the tool, {pathlib.Path(place.filename).name}:{place.lineno}: {type(error).__name__}: {' '.join(str(error).split())}"


def arguments(text, one=None):
    """The arguments of a tool whose help is its docstring, and what its status says; `one` is what status 1 means, if anything."""
    ones = f"1 where {one}, " if one else ""
    status = (
        f"The status is 0 where all is well, {ones}2 where the tool or its input failed, whatever it was, "
        "which one line tells, and 130 where it was interrupted."
    )
    return argparse.ArgumentParser(
        prog=f"gachuswi-tools {pathlib.Path(sys.argv[0]).stem}",
        description=text,
        epilog=textwrap.fill(status, 125),
        allow_abbrev=False,
        formatter_class=argparse.RawDescriptionHelpFormatter,
    )


def expect_writable(path):
    """Fails where a file cannot be written, before anything is done for it; None is the output stream."""
    if path and path.is_dir():
        raise Fault(f"{path}: it cannot be written, since it is a folder")
    if path and path.exists() and not os.access(path, os.W_OK):
        raise Fault(f"{path}: it may not be written")
    if path and not path.exists() and not os.access(path.absolute().parent, os.W_OK):
        raise Fault(f"{path}: it cannot be written, since its folder is not there, or may not be written")


class Progress:
    """How far a tool is and for how long, on a terminal only: it is told anew twice a second, whether it went on or not."""

    shown = None

    def __init__(self, what):
        self.what, self.count, self.begin, self.ended = what, 0, time.monotonic(), threading.Event()
        if sys.stderr.isatty():
            Progress.shown = self
            self.thread = threading.Thread(target=self.tell, daemon=True)
            self.thread.start()

    def tell(self):
        while not self.ended.wait(0.5):
            print(f"\r\033[K{self.count:,} {self.what}, {int(time.monotonic() - self.begin)} s", end="", file=sys.stderr, flush=True)

    def step(self, count=1):
        self.count += count

    def end(self):
        if Progress.shown is self:
            Progress.shown = None
            self.ended.set()
            self.thread.join()
            print("\r\033[K", end="", file=sys.stderr, flush=True)


@contextlib.contextmanager
def opened(path):
    """A file's bytes as a stream, unpacked by the ending of its name."""
    if path.suffix == ".zst":
        if not shutil.which("zstd"):
            raise Fault(f"{path}: it is packed by zstd, and there is no program zstd: install the package zstd")
        with subprocess.Popen(["zstd", "-dcq", path], stdout=subprocess.PIPE, stderr=subprocess.PIPE) as process:
            yield process.stdout
            process.stdout.close()
            if process.wait() != 0:
                raise Fault(process.stderr.read().decode(errors="replace").strip())
        return
    try:
        with {".gz": gzip.open, ".xz": lzma.open, ".lzma": lzma.open, ".bz2": bz2.open}.get(path.suffix, open)(path, "rb") as stream:
            yield stream
    except (OSError, EOFError, lzma.LZMAError, zlib.error) as error:
        raise Fault(f"{path}: {getattr(error, 'strerror', None) or error}")


class Parts:
    """Where a repository is written: the output stream; or a file, and more of them where it has more than testsolv reads of one."""

    def __init__(self, path, origin):
        self.path, self.number, self.origin = path, 1, origin.encode(**UTF)
        self.begin(open(path, "wb") if path else sys.stdout.buffer)

    def begin(self, stream):
        self.stream, self.size = stream, 0
        self.writelines([self.origin])

    def package(self):
        """Begins a package, in the next file where this one is full."""
        if self.path and self.size > FULL:
            self.stream.close()
            self.number += 1
            self.begin(open(self.path.with_stem(f"{self.path.stem}-{self.number}"), "wb"))

    def writelines(self, lines):
        for line in lines:
            self.size += len(line)
            self.stream.write(line)

    def end(self):
        if self.path:
            self.stream.close()
        elif self.size > LIMIT:
            print(f"it has {self.size:,} bytes, and testsolv reads {LIMIT:,} of one file: name one by --output", file=sys.stderr)
        if self.number > 1:
            print(f"{self.path} has {self.number - 1} more behind it, up to {self.stream.name}", file=sys.stderr)


def heading_of(epoch, words):
    """The words behind =Pkg:; it fails where testsolv would not read them as they are meant."""
    name, version, release, arch = words
    heading = f"{name} {evr_text(epoch, version, None)} {release or '-'} {arch}"
    if len(WORDS.findall(heading)) != 4 or heading.count(" ") != 3:
        raise ValueError(f"a package wants a name, a version, a release and an architecture, each without a blank: {heading}")
    if not EPOCH.fullmatch(epoch or "") or ":" in version + release:
        raise ValueError(f"a package wants a number as its epoch, and a version and a release without a colon: {heading}")
    return heading


class Repository:
    """A repository that is written. Which files matter is known at its end, so a draft with all of them is made first."""

    def __init__(self):
        self.draft = tempfile.TemporaryFile()
        self.named, self.headings = set(), {}
        self.left_out, self.example = collections.Counter(), {}

    def leave_out(self, what, example, note=", which may change the answer"):
        """Notes that something cannot be held."""
        self.left_out[note, what] += 1
        self.example.setdefault(what, example)

    def package(self, epoch, words, vendor, lines):
        """Adds a package: its name, version, release and architecture, and a line for each entry, the files among them."""
        name, heading = words[0], heading_of(epoch, words)
        lines = self.readable(lines, name)
        for line in lines:
            if "/" in line and line[:5] in ASKING:
                self.named.update(file_names(line[6:-1]))
        vendor = vendor.replace("\n", " ").strip(BLANKS)
        text = f"=Pkg: {heading}\n" + (f"=Vnd: {vendor}\n" if vendor else "") + "".join(lines)
        if self.headings.setdefault(heading, hash(text)) != hash(text):
            self.leave_out("which of two packages is meant by a text, though their lists differ (it is the first)", heading)
        self.draft.write(text.encode(**UTF))

    def readable(self, lines, name):
        """The lines of a package as testsolv reads them, without those that it cannot read."""
        text = "".join(lines)
        if text.count("\n") != len(lines):
            lines = [line for line in lines if self.is_one_line(line, name)]
        if any(hint in text for hint in suse.HINTS):
            for moved in suse.moved_files(lines):
                self.leave_out("that it comes where a file moved to it (splitprovides), as by libsolv in an update", f"{moved} of {name}")
            lines = suse.rewritten(lines)
        odd = {line: self.fitting(line, name) for line in ODD_LINES.findall("".join(lines))}
        return [odd.get(line, line) for line in lines] if odd else lines

    def is_one_line(self, line, name):
        if line.count("\n") > 1:
            self.leave_out("a line feed in a name", f"{line!r} of {name}")
        return line.count("\n") == 1

    def fitting(self, line, name):
        """A line as it is written, with signs for words: libsolv's testsolv knows no words. It is empty where it cannot be read."""
        tag, text = line[1:4], line[6:-1]
        why = unfit(text, tag)
        if why:
            self.leave_out(f"={tag}: {why}", f"{text} of {name}")
            return ""
        return f"={tag}: {with_signs(text)}\n" if text[0] == "(" else line

    def write(self, path, origin, files={}):
        """Writes the draft with those files alone that a dependency names; files has more of them by the package's place."""
        named = {path.encode(**UTF) for path in self.named}
        more = {place: [b"=Fls: %s\n" % path.encode(**UTF) for path in paths] for place, paths in files.items()}
        self.draft.seek(0)
        place, parts = -1, Parts(path, origin)
        for line in self.draft:
            if line.startswith(b"=Pkg:"):
                parts.writelines(more.get(place, ()))
                parts.package()
                place += 1
            if not line.startswith(b"=Fls:") or line[6:-1] in named:
                parts.writelines([line])
        parts.writelines(more.get(place, ()))
        parts.end()

    def tell(self):
        """Tells on the error stream what was left out, first what may change an answer."""
        for (note, what), count in sorted(self.left_out.items(), key=lambda item: (item[0][0] == "", item[0][1])):
            times = f", {count} times" if count > 1 else ""
            print(f"left out{note}{times}: {what}: {self.example[what]}", file=sys.stderr)


def lines_of(path):
    """The lines of a repository with their numbers, each entry of a block as a line of its own."""
    block = None
    with opened(path) as stream:
        for number, line in enumerate(stream, 1):
            line = line.decode(**UTF).rstrip("\r\n")
            if block and line.startswith(f"-{block}:"):
                block = None
            elif block:
                if line.strip(BLANKS):
                    yield number, f"={block}: {line}"
            elif line[:1] == "+" and line[4:5] == ":":
                block = line[1:4]
            else:
                yield number, line


def origin(tool, made_of, others):
    """The first line of a repository that a tool makes: a comment that says of what, and beside which others."""
    words = [pathlib.Path(tool).name, str(pathlib.Path(made_of).resolve()), "--with", *(str(other.resolve()) for other in others)]
    return f"# {shlex.join(words)}\n"


def origin_of(path):
    """What a repository was made of and the others beside it, or None where no tool here made it."""
    with opened(path) as stream:
        match = ORIGIN.fullmatch(stream.readline().decode(**UTF))
    if not match:
        return None
    made_of, _, *others = shlex.split(match[1])
    return made_of, others


def packages(path):
    """The packages of a repository, each with the lines of it. None at all has only one that a tool here made as it should be."""
    heading, lines = None, []
    for number, line in lines_of(path):
        if line.startswith("=Pkg:"):
            if heading:
                yield package_of(heading, lines), lines
            heading, lines = WORDS.findall(line)[1:], []
            if len(heading) != 4:
                raise Fault(f"{path}:{number}: a package has a name, a version, a release and an architecture")
        if heading:
            lines.append(line)
    if heading:
        yield package_of(heading, lines), lines
    elif not origin_of(path):
        raise Fault(f"{path}: it has no package: it is no repository in testtags format, or was cut to nothing")


def expect_packages(paths):
    """Fails where one of the files is no repository, before anything is done for them."""
    for path in paths:
        next(packages(path), None)


def package_of(words, lines):
    name, version, release, arch = words
    vendors = [line[5:].strip(BLANKS) for line in lines if line.startswith("=Vnd:")]
    return Package(name, version if release == "-" else f"{version}-{release}", arch, ([""] + [vendor for vendor in vendors if vendor])[-1])


def named_files(path):
    """The names of files that the dependencies of a repository ask for."""
    return {name for _, line in lines_of(path) if "/" in line and line[:5] in ASKING for name in file_names(line[5:])}


class Contents:
    """The names of a repository's packages, and of each file that they have or provide, as far as it tells, those that have it."""

    def __init__(self, path):
        self.names, self.owners = set(), collections.defaultdict(set)
        for package, lines in packages(path):
            self.names.add(package.name)
            for line in lines:
                if line.startswith(("=Fls: /", "=Prv: /")):
                    self.owners[line[6:]].add(package.name)


def made_without(paths):
    """Which of the repositories were made without which others of them: the converter then left files out that those name."""
    origins = {path: origin_of(path) for path in paths}
    for path, made in origins.items():
        if made:
            known = {made[0], *made[1]}
            made_of = lambda other: {str(other.resolve()), *(origins[other] or ())[:1]}
            if without := [other for other in paths if other != path and not known & made_of(other)]:
                yield path, without


def may_lack(contents, path, names):
    """Those of the files that a repository may have though it does not tell: nothing has one, or its owner is there too."""
    others = [one.owners for one in contents.values()]
    for name in sorted(names - contents[path].owners.keys()):
        owners = set().union(*(owned[name] for owned in others if name in owned))
        if not owners or owners & contents[path].names:
            yield name


def tell_made_without(paths):
    """Tells where a file may be missing, since a repository was made without another one whose dependencies name it."""
    suspected = list(made_without(paths))
    contents = {path: Contents(path) for path in paths} if suspected else {}
    for path, others in suspected:
        for other in others:
            if names := list(may_lack(contents, path, named_files(other))):
                more = f" and {len(names) - 1} more" if len(names) > 1 else ""
                print(f"{path} may lack {names[0]}{more}, for which {other} asks: it was made without --with {other}", file=sys.stderr)
