#!/usr/bin/env python3
"""What has to be believed: the definitions that the contracts of the top calls and the public laws reach.

    tools/promise.py               how large each of the four promises is, and crate by crate what stands beside them
    tools/promise.py --check       fails where a module of a crate's specs/ holds anything else: what serves contracts
                                   between layers, loops and tables stands in specs/Inner/, examples in crates of their own
    tools/promise.py --print NAME  one promise as a text in reading order, lowest crate first: `library` (`prepare` and
                                   `answer`), `run` (testsolv), `proofcheck`, `c` (the library for C), or `laws`, what
                                   public laws say besides; without NAME all of them together
    tools/promise.py --words NAME  the same in words: a table for each module, with the names of its definitions and the
                                   comments that stand before them. A definition without a comment stands in the row of
                                   the one before it. NAME may also be a crate: then all of its definitions come, those
                                   between layers too

The promise of a program counts with the contracts of the traits through which it meets files and sinks. A public law is a
public function of a module `laws` that does nothing (LAW_MODULES names one more module); one that calls other laws says how
layers fit each other, and is not counted, but for those on the checker of proofs and on what a run prints.

Each definition counts by itself, also in a block of some that share their parameters; those of a block `mutual` count
together. Constructors of `data` are names of their type; the fields of a record are no definitions. It reads the files as
text, at the top of the repository. A name that is bound again inside a definition counts as the definition of that name, so
that the promise may come out larger than it is, and not smaller.
"""
import collections
import pathlib
import re
import signal
import sys

# crates that hold nothing but examples and tests
EXAMPLES = ("solv_worked", "solv_core_tests", "solv_call_tests", "solv_run_tests")
# the calls that each promise is of: crate, module, functions
CALLS = {
    "library": (("solv_answers", "preparing", ("prepare",)), ("solv_answers", "answering", ("answer",))),
    "run": (("solv_run", "top", ("run",)),),
    "proofcheck": (("solv_proof_run", "top", ("proof_run",)),),
    "c": (
        ("gachuswi", "calls", tuple(f"gachuswi_{it}" for it in ("abi", "run", "status", "out", "err", "close"))),
        ("gachuswi", "versions", ("gachuswi_evr_compare",)),
        (
            "gachuswi",
            "tasks",
            tuple(
                f"gachuswi_{it}"
                for it in (
                    "task_solve",
                    "task_status",
                    "task_err",
                    "task_changes",
                    "task_order",
                    "task_set",
                    "task_cycles",
                    "cycle_packages",
                    "task_problems",
                    "problem_rules",
                    "problem_solutions",
                    "solution_rules",
                    "solution_set",
                    "task_close",
                )
            ),
        ),
        ("gachuswi", "task_rules", tuple(f"gachuswi_{it}" for it in ("task_rules", "rule_get", "rule_packages"))),
        (
            "gachuswi",
            "task_texts",
            tuple(
                f"gachuswi_{it}"
                for it in ("package_text", "dep_text", "rule_text", "solution_text", "problem_proof", "task_packages", "package_find")
            ),
        ),
        ("gachuswi", "tasks_anew", ("gachuswi_task_solve_again",)),
        (
            "gachuswi",
            "tasks_built",
            tuple(
                f"gachuswi_{it}"
                for it in (
                    "task_open",
                    "task_repos",
                    "repo_add",
                    "packages_add",
                    "system_set",
                    "package_disable",
                    "namespace_add",
                    "flags_set",
                    "job_add",
                    "job_add_by",
                    "jobs_clear",
                    "task_answer",
                )
            ),
        ),
    ),
}
# modules that stand apart and are read with a promise: the number of each status
READ_BESIDES = (("solv_io", "Inner.Statuses"),)
# the traits through which the programs meet the outside: crate, module, trait
TRAITS = (("solv_io", "fetching", "Files"), ("solv_io", "writing", "Sink"))
PROGRAMS = ("run", "proofcheck")
# modules with public laws beside those whose name ends with `laws`
LAW_MODULES = (("solv_graph", "reaching"),)
# crates whose laws are promised although they call others: what the checker of proofs says, what a maintainer relies on, and that what a run prints is read back
CALLING = ("solv_verdicts", "solv_proof_run", "solv_laws", "solv_run")
ROOT = pathlib.Path(__file__).resolve().parent.parent
WORD = re.compile(r"[^\s(){}\[\],;]+")
USE = re.compile(r"^(\s*)(?:pub )?(?:ghost )?use Rattle\.([^\s{]+?)(?:\.\{(.*)\})?(?: as (\S+?))?;?$")
HEAD = re.compile(r"^(\s*)(?:(?:abbrev|unfoldable)(?: pub)?|(?:pub )?(?:record|data)|pub|) ?([^\s:({]+)(?=[\s:({])")
KINDS = ("abbrev ", "unfoldable ", "record ", "data ", "pub record ", "pub data ")


class Definition:
    """A definition, or a block of some that call each other."""

    def __init__(self, module, line, names, lines, comment, headers):
        self.module, self.line, self.names, self.lines, self.comment, self.headers = module, line, names, lines, comment, headers


class Module:
    """A module of specs/: its imports, and its definitions in order."""

    def __init__(self, crate, path):
        self.crate = crate.name
        self.name = ".".join(path.relative_to(crate / "specs").with_suffix("").parts)
        self.path = path
        self.text = path.read_text().split("\n")
        self.imports, self.aliases = imports_of(self.text)
        self.items = list(items_of(self))


def imports_of(lines):
    """What names stand for: (module, name), and which word stands for which module."""
    names, aliases = {}, {}
    for line in lines:
        use = USE.match(line)
        if not use:
            continue
        path, group, alias = use.group(2), use.group(3), use.group(4)
        if group is None:
            aliases[alias or path.split(".")[-1]] = path
            continue
        for entry in group.split(", "):
            name, _, local = entry.strip().partition(" as ")
            names[local or name] = (path, name)
    return names, aliases


def items_of(module):
    """Each definition by itself, with its comment and the headers of the blocks round it. A `mutual` block stays whole."""
    headers, comment, item, mutual = [], [], None, None
    for number, line in enumerate(module.text):
        rest = line.lstrip()
        depth = len(line) - len(rest)
        if not rest:
            continue
        if depth == 0 and (USE.match(line) or line.startswith("pub mod ")):
            item, comment = None, []
            continue
        while headers and depth <= headers[-1][0]:
            headers.pop()
        base = headers[-1][0] + 2 if headers else 0
        if mutual is not None and depth <= mutual:
            item, mutual = None, None
        if rest.startswith("--") and (item is None or depth <= base) and mutual is None:
            comment.append(line)
            continue
        if mutual is None and depth == base and rest.startswith("module "):
            headers.append((depth, line))
            item = None
            continue
        if depth == base and (rest.strip() in ("mutual", "abbrev mutual") or begins(rest, item)):
            names = [] if rest.strip().endswith("mutual") else [HEAD.match(rest).group(2)]
            item = Definition(module, number + 1, names, [line], comment, [header for _, header in headers])
            comment = []
            mutual = depth if not names else None
            yield item
            continue
        if item is not None:
            item.lines.append(line)
            if mutual is not None and depth == mutual + 2:
                name = HEAD.match(rest)
                if name and (rest.startswith(KINDS) or re.match(r"^(?:pub )?[^\s:=(]+ :", rest)):
                    item.names.append(name.group(2))


def begins(rest, item):
    """Whether a line is the first of a definition, and no equation of the one in hand."""
    name = HEAD.match(rest)
    return (
        bool(name)
        and (rest.startswith(KINDS) or re.match(r"^(?:pub )?[^\s:=(]+ :", rest) is not None)
        and (item is None or name.group(2) not in item.names)
    )


def crates():
    """The crates of crates.txt, each behind those that it stands on."""
    needs = {}
    for line in (ROOT / "crates.txt").read_text().split("\n"):
        line = line.split("#")[0]
        if ":" in line:
            name, rest = line.split(":", 1)
            needs[name.split()[0]] = rest.split()
    done = []

    def visit(name):
        if name in needs and name not in done:
            for need in needs[name]:
                visit(need)
            done.append(name)

    for name in needs:
        visit(name)
    return done


def modules_of(names):
    found = {}
    for name in names:
        crate = ROOT / "crates" / name
        for path in sorted((crate / "specs").rglob("*.antt")):
            if path.name == "Lib.antt" or all(re.match(r"^(pub mod .*|--.*|)$", line) for line in path.read_text().split("\n")):
                continue
            module = Module(crate, path)
            found[(module.crate, module.name)] = module
    return found


def words_of(lines):
    return {word.strip(".") for line in lines for word in WORD.findall(line)}


class Book:
    """All definitions, and what cites what."""

    def __init__(self):
        self.crates = crates()
        self.modules = modules_of(self.crates)
        self.definitions = [item for module in self.modules.values() for item in module.items]
        self.by_name = {}
        for item in self.definitions:
            for name in item.names:
                self.by_name[(item.module.crate, item.module.name, name)] = item
            for name in parts_of(item):
                self.by_name.setdefault((item.module.crate, item.module.name, name), item)

    def find(self, path, name):
        """The definition of a name of a module, which may pass it on from another (`pub use`)."""
        crate, _, rest = path.partition(".specs.")
        item, module = self.by_name.get((crate, rest, name)), self.modules.get((crate, rest))
        if item or not module or name not in module.imports:
            return item
        return self.find(*module.imports[name])

    def cited(self, words, imports, aliases, crate=None, module=None):
        for word in words:
            if word in imports:
                yield self.find(*imports[word])
            elif crate and (crate, module, word) in self.by_name:
                yield self.by_name[(crate, module, word)]
            elif "." in word:
                first, _, last = word.partition(".")
                if first in aliases:
                    yield self.find(aliases[first], last)

    def reach(self, seeds):
        seen, left = set(), [seed for seed in seeds if seed]
        while left:
            item = left.pop()
            if item in seen:
                continue
            seen.add(item)
            module = item.module
            left += [
                other for other in self.cited(words_of(item.headers + item.lines), module.imports, module.aliases, module.crate, module.name) if other
            ]
        return seen


def parts_of(item):
    """The constructors of the types that an item defines by `data`; the fields of a record are no definitions."""
    inside = None
    for line in item.lines:
        rest = line.lstrip()
        depth = len(line) - len(rest)
        if inside is not None and depth <= inside:
            inside = None
        if re.match(r"^(?:pub )?data ", rest):
            inside = depth
        elif inside is not None and depth == inside + 2:
            part = re.match(r"^((?:[^\s:(){}]+ )+):", rest)
            if part:
                yield from part.group(1).split()


def functions_of(path):
    """Each public function of a file, with its clauses, and whether it does nothing."""
    text = path.read_text()
    for match in re.finditer(r"^( *)pub (?:extern \"C\" )?fn (\w+)", text, re.M):
        indent = match.group(1)
        end = re.compile(r"^" + indent + r"(?:\{\}|\{)$", re.M).search(text, match.end())
        if end:
            yield match.group(2), text[match.start() : end.start()], end.group(0).strip() == "{}"


def trait_clauses(path, trait):
    """The clauses of the functions of a trait."""
    text = path.read_text()
    begin = re.search(r"^pub trait " + trait + r" \{$", text, re.M).end()
    body = text[begin : text.index("\n}\n", begin)]
    return "\n".join(line for line in body.split("\n") if not line.lstrip().startswith("//"))


def cited_by(book, path, clauses):
    imports, aliases = imports_of(path.read_text().split("\n"))
    return [item for item in book.cited(words_of([clauses]), imports, aliases) if item]


def source(crate, module):
    return ROOT / "crates" / crate / "src" / f"{module}.rt"


def seeds_of_calls(book, name):
    """What the contracts of these calls name, and of a program those of the traits."""
    found = []
    for crate, module, functions in CALLS[name]:
        path = source(crate, module)
        clauses = {function: text for function, text, _ in functions_of(path)}
        for function in functions:
            found += cited_by(book, path, clauses[function])
    if name in PROGRAMS:
        for crate, module, trait in TRAITS:
            path = source(crate, module)
            found += cited_by(book, path, trait_clauses(path, trait))
    return found


def seeds_of_laws(book):
    """What the public laws name."""
    found = []
    for crate in book.crates:
        for path in sorted((ROOT / "crates" / crate / "src").rglob("*.rt")):
            if path.stem.endswith("laws") or (crate, path.stem) in LAW_MODULES:
                for _, clauses, is_empty in functions_of(path):
                    if is_empty or crate in CALLING:
                        found += cited_by(book, path, clauses)
    return found


def words_in(lines):
    return " ".join(line.strip().lstrip("-").strip() for line in lines)


def said_of(module):
    """What a module's file says of itself: the comment before its imports."""
    front = []
    for line in module.text:
        if line.startswith("--"):
            front.append(line)
        elif line.strip():
            break
    return words_in(front) if line.startswith(("use ", "pub use ", "pub mod ")) or front and not line.strip() else ""


def rows_of(items):
    """The rows of a module's table: names, and what the comments before them say. A comment that stands further left is of the block round it."""
    rows = []
    for item in items:
        depth = len(item.lines[0]) - len(item.lines[0].lstrip())
        block = [line for line in item.comment if len(line) - len(line.lstrip()) < depth]
        own = item.comment[len(block) :]
        if block:
            rows.append(([], f"*{words_in(block)}*"))
        names = [name for name in item.names if name] or ["mutual"]
        if own or not rows or not rows[-1][0]:
            rows.append((names, words_in(own)))
        else:
            rows[-1][0].extend(names)
    return rows


def in_words(book, chosen):
    """The tables of some definitions, crate by crate and module by module."""
    crate = None
    for (name, part), module in book.modules.items():
        items = [item for item in module.items if item in chosen]
        if not items:
            continue
        if name != crate:
            print(f"# {name}", end="\n\n")
            crate = name
        print(f"## {part}", end="\n\n")
        said = said_of(module)
        if said:
            print(said, end="\n\n")
        print("| name | what it is |\n|---|---|")
        for names, words in rows_of(items):
            cells = (", ".join(f"`{it}`" for it in names), words.replace("|", "\\|"))
            print("| {} | {} |".format(*cells))
        print()


def lines_of(items):
    return sum(len(item.lines) + len(item.comment) for item in items)


def code_of(items):
    return sum(len(item.lines) for item in items)


def names_of(items):
    return sum(len(item.names) for item in items)


def told(what, items):
    return f"{what:30} {names_of(items):5} definitions, {lines_of(items):5} lines, {code_of(items):5} of them without comments"


def misplaced(book, promise):
    """Definitions that stand where the others of their module should not."""
    for module in book.modules.values():
        if (module.crate, module.name) in READ_BESIDES:
            continue
        apart = module.crate in EXAMPLES or module.name.split(".")[0] == "Inner"
        yield from (item for item in module.items if (item in promise) == apart)


def check(book, promise):
    wrong = 0
    for item in misplaced(book, promise):
        where = "is not of the promise" if item not in promise else "is of the promise"
        print(f"{item.module.path.relative_to(ROOT)}:{item.line}: {' '.join(item.names[:3])} {where}")
        wrong += 1
    return 1 if wrong else 0


def table(book, promise):
    lines = collections.Counter()
    for item in book.definitions:
        lines[(item.module.crate, item in promise)] += len(item.comment) + len(item.lines)
    for crate in book.crates:
        if lines[(crate, True)] or lines[(crate, False)]:
            print(f"{crate:16} {lines[(crate, True)]:6} lines promised, {lines[(crate, False)]:6} beside it")


def main():
    words = sys.argv[1:]
    book = Book()
    promises = {name: book.reach(seeds_of_calls(book, name)) for name in CALLS}
    calls = set().union(*promises.values())
    laws = book.reach(seeds_of_laws(book))
    promise = calls | laws
    if words[:1] == ["--print"] and len(words) <= 2 and set(words[1:]) <= {*CALLS, "laws"}:
        chosen = {**promises, "laws": laws - calls}[words[1]] if words[1:] else promise
        for item in book.definitions:
            if item in chosen:
                print(f"-- {item.module.crate}, {item.module.name}")
                print("\n".join(item.headers + item.comment + item.lines), end="\n\n")
        return 0
    if words[:1] == ["--words"] and len(words) <= 2 and set(words[1:]) <= {*CALLS, "laws", *book.crates}:
        parts = {**promises, "laws": laws - calls}
        in_crate = [item for item in book.definitions if words[1:] == [item.module.crate]]
        in_words(book, set(in_crate) or (parts[words[1]] if words[1:] and words[1] in parts else promise))
        return 0
    if words == ["--check"]:
        return check(book, promise)
    if words:
        print("usage: promise.py [--check | --print [library | run | proofcheck | c | laws] | --words [the same, or a crate]]", file=sys.stderr)
        return 2
    print(told("library, `prepare`, `answer`:", promises["library"]))
    print(told("`run`:", promises["run"]))
    print(told("`proof_run`:", promises["proofcheck"]))
    print(told("  beside what `run` has:", promises["proofcheck"] - promises["run"]))
    print(told("the library for C:", promises["c"]))
    print(told("  beside what `run` has:", promises["c"] - promises["run"]))
    print(told("all four:", calls))
    print(told("public laws besides:", laws - calls))
    print(told("all definitions there are:", set(book.definitions)), end="\n\n")
    table(book, promise)
    return 0


if __name__ == "__main__":
    # (who reads the first lines alone ends it)
    signal.signal(signal.SIGPIPE, signal.SIG_DFL)
    sys.exit(main())
