"""Small repositories in rpm-md for the tests of the converters, written by hand, and how they are converted."""
import hashlib
import pathlib
import subprocess
import sys

from places import TOOLS

TOOL = TOOLS / "rpmmd_to_testtags.py"
NAMESPACES = 'xmlns="http://linux.duke.edu/metadata/common" xmlns:rpm="http://linux.duke.edu/metadata/rpm"'
IN_REPOMD = 'xmlns="http://linux.duke.edu/metadata/repo"'
IN_FILELISTS = 'xmlns="http://linux.duke.edu/metadata/filelists"'
VERSION = '<version epoch="0" ver="1" rel="1"/>'


def named(*names):
    """Entries of these names, for a list of a package."""
    return [f'name="{name}"' for name in names]


def checksum(name):
    """What a package of this name has as its checksum."""
    return hashlib.sha256(name.encode()).hexdigest()


def package(name="a", version=VERSION, arch="noarch", files="", vendor="", **lists):
    """A package, whose lists have the attributes of their entries."""
    inner = "".join(f"<rpm:{tag}>" + "".join(f"<rpm:entry {entry}/>" for entry in entries) + f"</rpm:{tag}>" for tag, entries in lists.items())
    return (
        f'<package type="rpm"><name>{name}</name><arch>{arch}</arch>{version}<checksum type="sha256" pkgid="YES">{checksum(name)}'
        f"</checksum><format><rpm:vendor>{vendor}</rpm:vendor>{inner}{files}</format></package>"
    )


def primary(*packages, count=None, namespaces=NAMESPACES):
    return f'<?xml version="1.0"?><metadata {namespaces} packages="{len(packages) if count is None else count}">{"".join(packages)}</metadata>'


def filelists(**files):
    """The list of all files, with those of some packages by their names."""
    inner = "".join(
        f'<package pkgid="{checksum(name)}" name="x" arch="noarch"><version epoch="0" ver="1" rel="1"/>'
        + "".join(f"<file>{one}</file>" for one in some)
        + "</package>"
        for name, some in files.items()
    )
    return f'<?xml version="1.0"?><filelists {IN_FILELISTS} packages="{len(files)}">{inner}</filelists>'


def write(folder, kinds=None, namespace=IN_REPOMD, **lists):
    """Writes a repository of these lists, in whose index the kinds stand: those of the lists, where nothing else is said."""
    place = pathlib.Path(folder, "repodata")
    place.mkdir(parents=True, exist_ok=True)
    for kind, text in lists.items():
        (place / f"{kind}.xml").write_text(text)
    data = "".join(f'<data type="{kind}"><location href="repodata/{kind}.xml"/></data>' for kind in kinds or lists)
    (place / "repomd.xml").write_text(f"<repomd {namespace}>{data}</repomd>")


def convert(*words):
    """The status of the converter, what it writes but for its first line, and what it tells."""
    run = subprocess.run([sys.executable, TOOL, *words], capture_output=True, text=True)
    return run.returncode, body(run.stdout), run.stderr


def body(text):
    """A converted repository without the comment in front."""
    head, _, rest = text.partition("\n")
    return rest if head.startswith("# ") else text
