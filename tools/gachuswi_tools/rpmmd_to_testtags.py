#!/usr/bin/env python3
"""Makes a repository that testsolv reads of one that createrepo_c made.

    gachuswi-tools rpmmd_to_testtags FOLDER [--with OTHER ..] [--output FILE]

FOLDER has the folder repodata. Its packages are written in testtags format (docs/FORMATS.md), in their order: version,
architecture, vendor, and what they provide, require, conflict with, obsolete, recommend, suggest, supplement and enhance, with
versions and rich texts, whose operators are signs. What SUSE says in names (`packageand(a:b)`, `locale(a:de)` and the like) is
written as the dependency that libsolv and zypper read there. Of their files those are written that a dependency of a package
here names, or one of an OTHER: a folder with repodata, or a repository in testtags format. The list of all files is read only
where a dependency names a file that the list of packages leaves out by its nature (it has those in /etc, in a folder bin or
sbin, and /usr/lib/sendmail). A comment in front says what the repository was made of, and with which others. With --output they
are written to FILE, and where that would be more than testsolv reads of one file to others besides, as NAME-2.repo; each is a
repository.

What the format cannot hold is left out, and told on the error stream: each kind once, with how often it stood there and its
first example. A requirement that is left out may make a package look as if it could be installed. Files may be packed as .gz,
.bz2, .xz and .zst.
"""
import collections
import functools
import pathlib
import sys
from xml.parsers import expat

import testtags
from dependencies import evr_text

COMMON, RPM, REPO, FILELISTS = (f"http://linux.duke.edu/metadata/{name} " for name in ("common", "rpm", "repo", "filelists"))
LISTS = {
    RPM + "provides": "Prv",
    RPM + "requires": "Req",
    RPM + "conflicts": "Con",
    RPM + "obsoletes": "Obs",
    RPM + "recommends": "Rec",
    RPM + "suggests": "Sug",
    RPM + "supplements": "Sup",
    RPM + "enhances": "Enh",
    # (SUSE's, which becomes a part of what is supplemented)
    RPM + "freshens": "Fre",
}
TEXTS = {COMMON + "name": "name", COMMON + "arch": "arch", COMMON + "checksum": "checksum", COMMON + "file": "file", RPM + "vendor": "vendor"}
COMPARISONS = {"EQ": "=", "LT": "<", "GT": ">", "LE": "<=", "GE": ">=", "NE": "<>"}
PACKAGE, ENTRY, VERSION, FILE, LISTED_FILE = COMMON + "package", RPM + "entry", COMMON + "version", COMMON + "file", FILELISTS + "file"


@functools.lru_cache(1 << 12)
def comparison_text(flags, epoch, version, release):
    """What stands behind a name (most entries of a package have its own version); without a version, as rpm takes it, nothing."""
    if not version:
        return ""
    return f" {COMPARISONS.get(flags, flags)} {evr_text(epoch, version, release)}"


class Reader:
    """A reader of XML, whose `start` and `end` are given each element, and which counts its packages."""

    ROOT = None

    def __init__(self, path):
        self.path, self.pieces, self.promised, self.packages = path, [], "", 0
        self.parser = expat.ParserCreate(namespace_separator=" ")
        self.parser.buffer_text = True
        self.parser.StartElementHandler, self.parser.EndElementHandler = self.root, self.end

    def root(self, element, attributes):
        """The outermost element, which tells what the document is, and how many packages it has."""
        if element != self.ROOT:
            raise ValueError(f"it begins with the element {element}, and not with {self.ROOT}")
        self.promised = attributes.get("packages", "")
        self.parser.StartElementHandler = self.start

    def compare_count(self):
        """Fails where packages are missing at the end; where there are more it only tells."""
        if self.promised.isdecimal() and int(self.promised) != self.packages:
            told = f"{self.path}: it says that it has {self.promised} packages, and has {self.packages}"
            if int(self.promised) > self.packages:
                raise testtags.Fault(told)
            print(told, file=sys.stderr)

    def end(self, element):
        pass

    def collect(self):
        """Begins to collect text, up to `text`."""
        self.pieces.clear()
        self.parser.CharacterDataHandler = self.pieces.append

    def text(self):
        self.parser.CharacterDataHandler = None
        return "".join(self.pieces)

    def read(self):
        try:
            with testtags.opened(self.path) as stream:
                while piece := stream.read(1 << 18):
                    self.parser.Parse(piece)
                self.parser.Parse(b"", True)
            self.compare_count()
        except testtags.Fault:
            raise
        except expat.ExpatError as error:
            raise testtags.Fault(f"{self.path}:{error.lineno}: {expat.ErrorString(error.code)}")
        except (KeyError, ValueError) as error:
            cause = f"the attribute {error} is missing" if isinstance(error, KeyError) else error
            raise testtags.Fault(f"{self.path}:{self.parser.CurrentLineNumber}: {cause}")
        return self


class Index(Reader):
    """repomd.xml: where the lists stand."""

    ROOT = REPO + "repomd"

    def __init__(self, folder):
        super().__init__(folder / "repodata" / "repomd.xml")
        self.folder, self.kind, self.places = folder, None, {}

    def start(self, element, attributes):
        if element == REPO + "data":
            self.kind = attributes["type"]
        elif element == REPO + "location" and self.kind:
            self.places[self.kind] = self.folder / attributes["href"]

    def place(self, kind):
        if kind not in self.places:
            kinds = ", ".join(self.places) or "none at all"
            raise testtags.Fault(f"{self.path}: it has no list of the kind {kind} (it has {kinds}); zchunk and databases are not read")
        return self.places[kind]


class Primary(Reader):
    """The list of packages, written into a repository."""

    ROOT = COMMON + "metadata"

    def __init__(self, path, repository):
        super().__init__(path)
        self.repository, self.tag, self.ids = repository, None, []
        self.found, self.lines = collections.defaultdict(str), []
        self.progress = testtags.Progress("packages")

    def read(self):
        super().read()
        self.progress.end()
        return self

    def start(self, element, attributes):
        if element == ENTRY:
            text, tag = attributes["name"], self.tag
            if tag is None:
                self.repository.leave_out("an entry of an unknown list", f"{text} of {self.found['name']}")
                return
            if len(attributes) > 1:
                if "flags" in attributes:
                    text += comparison_text(attributes["flags"], attributes.get("epoch"), attributes.get("ver", ""), attributes.get("rel"))
                if tag == "Req" and attributes.get("pre") in ("1", "true"):
                    tag = "Prq"
            self.lines.append(f"={tag}: {text}\n")
        elif element in TEXTS:
            self.collect()
        elif element in LISTS:
            self.tag = LISTS[element]
        elif element == PACKAGE:
            self.packages += 1
            self.found, self.lines = collections.defaultdict(str), []
        elif element == VERSION:
            self.found.update(attributes)

    def end(self, element):
        if element == ENTRY:
            return
        if element == FILE:
            self.lines.append(f"=Fls: {self.text()}\n")
        elif element in TEXTS:
            self.found[TEXTS[element]] = self.text()
        elif element in LISTS:
            self.tag = None
        elif element == PACKAGE:
            found = self.found
            self.ids.append(found["checksum"])
            self.repository.package(found["epoch"], [found[word] for word in ("name", "ver", "rel", "arch")], found["vendor"], self.lines)
            self.progress.step()


class Filelists(Reader):
    """The list of all files: those that are wanted, by the package's checksum."""

    ROOT = FILELISTS + "filelists"

    def __init__(self, path, wanted):
        super().__init__(path)
        self.wanted, self.found, self.id = wanted, collections.defaultdict(list), None

    def start(self, element, attributes):
        if element == LISTED_FILE:
            self.collect()
        elif element == FILELISTS + "package":
            self.id, self.packages = attributes["pkgid"], self.packages + 1

    def end(self, element):
        if element == LISTED_FILE and (path := self.text()) in self.wanted:
            self.found[self.id].append(path)


def is_in_primary(path):
    """Whether the list of packages has a file of this name, if there is one: it is createrepo's own rule."""
    return path.startswith("/etc/") or "bin/" in path or path == "/usr/lib/sendmail"


def named_by(other):
    """The names of files that another repository's dependencies ask for."""
    if not other.is_dir():
        testtags.expect_packages([other])
        return testtags.named_files(other)
    repository = testtags.Repository()
    Primary(Index(other).read().place("primary"), repository).read()
    return repository.named


def files_of(index, primary, repository):
    """The files that a dependency names and the list of packages leaves out, by the place of their package."""
    wanted = {path for path in repository.named if not is_in_primary(path)}
    place = index.places.get("filelists")
    if wanted and not (place and place.exists()):
        for path in sorted(wanted):
            repository.leave_out(f"the file {path}, which some package may have", f"{index.folder} has no list of files")
    elif wanted:
        found = Filelists(place, wanted).read().found
        for id in sorted(found.keys() - set(primary.ids)):
            repository.leave_out("files of a package of another checksum than those of the list of packages", f"{found[id][0]} of {id}")
        return {place: found[id] for place, id in enumerate(primary.ids) if id in found}
    return {}


def main(given):
    testtags.expect_writable(given.output)
    repository = testtags.Repository()
    index = Index(given.folder).read()
    primary = Primary(index.place("primary"), repository).read()
    for other in given.others:
        repository.named |= named_by(other)
    repository.write(given.output, testtags.origin(__file__, given.folder, given.others), files_of(index, primary, repository))
    if "modules" in index.places:
        repository.leave_out("module streams, all of which are taken as there", index.places["modules"])
    repository.tell()
    return 0


if __name__ == "__main__":
    arguments = testtags.arguments(__doc__)
    arguments.add_argument("folder", metavar="FOLDER", type=pathlib.Path)
    arguments.add_argument("--with", dest="others", metavar="OTHER", nargs="+", type=pathlib.Path, default=[])
    arguments.add_argument("--output", metavar="FILE", type=pathlib.Path)
    testtags.run(main, arguments)
