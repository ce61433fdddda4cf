"""What SUSE's packages say in names, written as dependencies, as libsolv and zypper read it.

A function of each form gives the lines for what stands in its parentheses. As in libsolv the last byte of a name is taken for the
closing parenthesis, whatever it is.
"""
import re

# what a name has that may be one of the forms
HINTS = ("=Con: otherproviders(", "=Sup: packageand(", "modalias(", "=Sup: filesystem(", "=Prv: locale(", ":/", "=Fre: ")
FORM = re.compile(r"=(Con: otherproviders|Sup: packageand|Sup: (?:system:)?modalias|Sup: filesystem|Prv: locale)\(([^ \t\r\n]+)\n")
MOVED_FILE = re.compile(r"=Prv: (?!locale\()[^: \t\r\n]+:/[^ \t\r\n]*\n")
# so many languages at most stand in one text, which may have 64 operators
MOST = 60


def any_of(names):
    return names[0] if len(names) == 1 else f"({' | '.join(names)})"


def all_of(names):
    return names[0] if len(names) == 1 else f"({' & '.join(names)})"


def other_providers(text):
    """A conflict with all but the package itself, and no package ever conflicts with itself."""
    return [f"=Con: {text[:-1]}\n"]


def package_and(text):
    """Several packages; `pattern:` belongs to the name behind it."""
    names = re.findall(r"(?:pattern:)?[^:]+", text[:-1])
    return [f"=Sup: {all_of(names)}\n"] if names else []


def modalias(text):
    """A package and hardware, or hardware alone; an alias of hardware has a colon."""
    package, _, alias = text[:-1].partition(":")
    if package and ":" in alias:
        return [f"=Sup: ({package} & namespace:modalias({alias}))\n"]
    return [f"=Sup: namespace:modalias({text[:-1]})\n"]


def filesystem(text):
    return [f"=Sup: namespace:filesystem({text.rpartition(')')[0] or text})\n"]


def locale(text):
    """A package and one of its languages, or one of the languages alone."""
    package, colon, rest = text.partition(":")
    if not package or not colon:
        package, rest = "", text
    *names, last = rest.split(";")
    # (of the last one there is something before the parenthesis)
    names += [last.partition(")")[0]] if len(last) > 1 else []
    languages = [f"namespace:language({name})" for name in names if name]
    shares = [any_of(languages[at : at + MOST]) for at in range(0, len(languages), MOST)]
    return [f"=Prv: locale({text}\n"] + [f"=Sup: {all_of([package, share] if package else [share])}\n" for share in shares]


FORMS = {
    "Con: otherproviders": other_providers,
    "Sup: packageand": package_and,
    "Sup: modalias": modalias,
    "Sup: system:modalias": modalias,
    "Sup: filesystem": filesystem,
    "Prv: locale": locale,
}


def with_freshens(lines):
    """The lines with what is freshened made a part of what is supplemented: one of these and one of those, where there are both."""
    supplements, freshens = ([line[6:-1] for line in lines if line.startswith(tag)] for tag in ("=Sup: ", "=Fre: "))
    if not freshens:
        return lines
    said = [all_of([any_of(supplements), any_of(freshens)])] if supplements else freshens
    return [line for line in lines if line[:6] not in ("=Sup: ", "=Fre: ")] + [f"=Sup: {text}\n" for text in said]


def rewritten(lines):
    """The lines of a package with what its names say."""
    made = []
    for line in lines:
        match = FORM.fullmatch(line)
        made += FORMS[match[1]](match[2]) if match else [line]
    return with_freshens(made)


def moved_files(lines):
    """What a package provides that says which package a file moved out of: libsolv brings the package in an update of that one."""
    return [line[6:-1] for line in lines if MOVED_FILE.fullmatch(line)]
