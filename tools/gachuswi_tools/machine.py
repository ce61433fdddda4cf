"""What a machine has besides packages, for the tools that ask: its languages, its hardware and its file systems.

They are lines of a script, as `namespace namespace:language(de) @SYSTEM`, and packages may be supplemented by them, as SUSE's are.
"""
import fnmatch
import pathlib
import urllib.parse

import rounds
import testtags
from dependencies import words_of

MODALIAS = "namespace:modalias("


def add_options(arguments):
    """Adds the options by which a tool is told of a machine."""
    arguments.add_argument(
        "--locale", metavar="LOCALE", dest="locales", nargs="+", default=[], help="its languages: de_DE counts as de_DE, as de, and at last as en"
    )
    arguments.add_argument(
        "--modalias",
        metavar="FILE",
        type=pathlib.Path,
        help="a file with the aliases of its hardware, one in a line, as /sys/devices has them in files modalias",
    )
    arguments.add_argument("--filesystem", metavar="NAME", dest="filesystems", nargs="+", default=[], help="its file systems, as xfs")


def languages(locale):
    """A locale and those that count where nothing speaks it, as for zypper."""
    name = locale.partition(".")[0].partition("@")[0]
    return [name, name.partition("_")[0], "en"]


def patterns(path):
    """The patterns of hardware in the dependencies of a repository."""
    for _, line in testtags.lines_of(path):
        if MODALIAS in line:
            yield from (word[len(MODALIAS) : -1] for word in words_of(line[5:]) if word.startswith(MODALIAS))


def namespaces(given, paths):
    """The lines of a script on the machine, before its rounds."""
    named = [f"language({one})" for locale in given.locales for one in languages(locale)]
    named += [f"filesystem({one})" for one in given.filesystems]
    if given.modalias:
        with testtags.opened(given.modalias) as stream:
            aliases = [line for line in stream.read().decode(**testtags.UTF).split("\n") if line]
        # (rpm allows no blank or comma in a name, so some are written as %20 and the like)
        found = {one for path in paths for one in patterns(path)}
        named += [f"modalias({one})" for one in sorted(found) if any(fnmatch.fnmatchcase(alias, urllib.parse.unquote(one)) for alias in aliases)]
    return [f"namespace namespace:{one} @SYSTEM" for one in dict.fromkeys(named)]


def holding(given, folder, lines, packages, entries):
    """The numbers of the supplements that hold on a machine with these packages, as testsolv has it.

    Each supplement is a made package. Of the others stands there what they are named and what they provide.
    """
    there, made = pathlib.Path(folder, "there.repo"), pathlib.Path(folder, "supplements.repo")
    kept = [line for _, of_package in packages for line in of_package if line.startswith(("=Pkg:", "=Prv:", "=Fls:"))]
    there.write_text("".join(f"{line}\n" for line in kept), **testtags.UTF)
    made.write_text("".join(f"=Pkg: supplement-{number} 1 - noarch\n=Sup: {text}\n" for number, (_, text) in enumerate(entries)), **testtags.UTF)
    head = rounds.head([there, made], ["there", "made"], given.arch, "there") + lines
    answer = next(rounds.answers(given.program, folder, head, ["job noop\n"])) or ()
    return {int(line.split("-")[1]) for line in answer if line.startswith("install supplement-")}


def names_asked_for(packages):
    """The names of what the packages require and recommend."""
    texts = [line[6:] for _, lines in packages for line in lines if line[:5] in ("=Req:", "=Prq:", "=Rec:")]
    return {word for text in texts for word in words_of(text)}


def called_for_anyway(given, folder, lines, stays, comes):
    """The names of packages that come since a supplement holds without any package that comes.

    A package that comes besides since another one does, by a supplement, a requirement or a recommendation, is none of them.
    """
    entries = [(package.name, line[6:]) for package, of_package in comes for line in of_package if line.startswith("=Sup: ")]
    if not entries:
        return set()
    before = holding(given, folder, lines, stays, entries)
    after = holding(given, folder, lines, stays + comes, entries)
    asked = names_asked_for(comes)
    anyway = {entries[number][0] for number in before} - {entries[number][0] for number in after - before}
    for package, of_package in comes:
        provided = {package.name} | {line[6:].split(" ")[0] for line in of_package if line.startswith(("=Prv: ", "=Fls: "))}
        if provided & asked:
            anyway.discard(package.name)
    return anyway
