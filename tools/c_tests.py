#!/usr/bin/env python3
"""Tries the library for C: builds it by both compilers, links programs in C with it, and runs them.

    tools/c_tests.py [--over CLONE | --archive NAME=FILE ..] [--only WORD] [--quick]

At the top of the repository, on a machine with the toolchain, whose command rt is on the path, and `cc` and `c++`; `valgrind` is
used where it is there. The library is proved and built twice, by `rt lib` in crates/gachuswi, as LLVM and as Rattle's own compiler
make it, or by `tools/over.py` over the libraries that a gate left in CLONE, which takes minutes where nothing was kept. With
`--archive` each FILE, a libgachuswi.a, is tried under its NAME, and nothing is built. `--only` runs the tests whose name has the
word; `--quick` leaves out valgrind and tries the refusals of memory on a few scripts.

Of each archive these are tried:

- the shared library that is made of it shows the calls that the headers declare and nothing else, and wants nothing but calls of
  the C library for memory;
- calls made rightly and wrongly (c_tests/calls.c), linked with the archive and with the shared library, with the address and the
  undefined behaviour sanitizers in the C part, and under valgrind;
- every script of the folders of test scripts and of examples (c_tests/scripts.c), with the stored output of the programs, in
  the same four ways;
- every such script once more as a task that is read by numbers, whose lines are those of the texts, and which is answered anew
  (c_tests/tasks.c), in the same four ways;
- tasks built by calls, whose answers, rules and proofs are those that were worked out by hand (c_tests/worked.c), in the same four ways;
- the task of every such script built by calls, with the same answer, and calls that build and are made wrongly (c_tests/drafts.c), in the
  same four ways;
- memory refused at each allocation of a call, alone and with all that follow (c_tests/memory.c, and of the calls for a task
  c_tests/task_memory.c);
- the test scripts once more in a small stack;
- calls from several threads at once (c_tests/threads.c), under valgrind's helgrind too;
- the callers of docs/LIBRARY.md, which are two, and of README.md, which are one in C and one in Python, as they stand there and run as
  the pages say;
- where the files of libsolv are there for whoever builds with it: the same jobs asked of both, from one pool of libsolv's
  (c_tests/beside_libsolv.c);
- the headers, as C11 and as C++17.

A line tells of each test, and the last one is 'N passed, M failed'. The status is 1 where one failed, and 2 where nothing could be
tried. None of this is a proof: that the library does what its contracts say is what the gate proves.
"""
import argparse
import pathlib
import re
import resource
import shutil
import subprocess
import sys
import tempfile

TOP = pathlib.Path(__file__).resolve().parent.parent
CRATE = TOP / "crates/gachuswi"
TESTS = TOP / "c_tests"
SCRIPTS = TOP / "crates/solv_script_tests"

# what the compilers are told; warnings are errors
STRICT = ["-Wall", "-Wextra", "-Werror", "-pedantic-errors"]
PLAIN = ["-std=c11", "-O2", "-g", "-pthread", *STRICT, f"-I{TOP}/include"]
SANITIZED = ["-fsanitize=address,undefined", "-fno-sanitize-recover=all"]
WRAPPED = ["-Wl,--wrap=malloc,--wrap=realloc,--wrap=free"]

# what a shared library may want from outside: the C library's calls for memory, and what links and unloads it
WANTED = {
    "malloc",
    "realloc",
    "free",
    "memcpy",
    "memmove",
    "memset",
    "memcmp",
    "__cxa_finalize",
    "__gmon_start__",
    "_ITM_registerTMCloneTable",
    "_ITM_deregisterTMCloneTable",
}

# the headers, which declare what the library shows
HEADERS = [TOP / "include/gachuswi.h", TOP / "include/gachuswi_task.h"]

# a small stack, in bytes
STACK = 256 * 1024

# the toolchain's object that asks the C library for memory
HEAP = "heap.pic.o"

# the option with which solv_script_tests runs the scripts of a folder
OPTION_OF = {"shown": "-r", "proved": "--proof", "written": "--write"}

# the scripts that threads run, and that memory is refused for with --quick
FEW = ["versions/false.t", "changes/each_kind.t", "rounds/jobs_anew.t"]


class Unmade(Exception):
    """A command that has to pass has not."""


def stop(why):
    print(f"c_tests: {why}", file=sys.stderr)
    sys.exit(2)


def told(words, folder=None, **how):
    """What a command says, and its status."""
    ran = subprocess.run([str(word) for word in words], cwd=folder, stdout=subprocess.PIPE, stderr=subprocess.STDOUT, **how)
    return ran.returncode, ran.stdout


def kit():
    """The toolchain's folder."""
    return pathlib.Path(told(["rt", "doc"])[1].decode().strip()).parent


def made(words, folder=None):
    """Runs a command that has to pass."""
    status, said = told(words, folder)
    if status:
        raise Unmade(f"{' '.join(str(word) for word in words)}\n{said.decode(errors='replace')}")


def whole(archive, room):
    """An archive with the toolchain's object for memory in it, so that a program needs nothing else."""
    room.mkdir()
    made(["ar", "x", kit() / "c/liblibc_c.a", HEAP], room)
    to = room / "libgachuswi.a"
    shutil.copyfile(archive, to)
    if HEAP not in told(["ar", "t", to])[1].decode().split():
        made(["ar", "qD", to, room / HEAP])
    return to


def built(room, clone):
    """The archives of both compilers."""
    archives = {backend: room / f"{backend}.a" for backend in ("llvm", "rattle")}
    for backend, archive in archives.items():
        print(f"building the library by {backend}", flush=True)
        if clone:
            made([sys.executable, TOP / "tools/over.py", "archive", "gachuswi", clone, archive, "--backend", backend], TOP)
        else:
            made(["rt", "lib", "--backend", backend], CRATE)
            shutil.copyfile(CRATE / "out/libgachuswi.a", archive)
    return archives


def declared():
    """The calls that the headers declare: those that are not conveniences in C."""
    calls = [re.findall(r"^(?:int32_t|uint32_t|size_t|void) (gachuswi_\w+)\(", header.read_text(), re.M) for header in HEADERS]
    return {call for of_header in calls for call in of_header}


def has_valgrind(quick):
    return shutil.which("valgrind") and not quick


def libsolv():
    """What a compiler is told of libsolv, or nothing where it is not there."""
    status, said = told(["pkg-config", "--cflags", "--libs", "libsolvext", "libsolv"]) if shutil.which("pkg-config") else (1, b"")
    return [] if status else said.decode().replace("-I", "-isystem ").split()


class Trial:
    """The tests of one archive."""

    def __init__(self, name, archive, room, only, quick):
        self.name, self.room, self.only, self.quick = name, room, only, quick
        self.archive = whole(archive, room)
        self.passed = self.failed = 0

    def check(self, what, says):
        """Runs a test, which says what is wrong or nothing."""
        if self.only not in what:
            return
        try:
            wrong = says()
        except Unmade as why:
            wrong = str(why)
        print(f"{self.name}: {what}: {'FAILED' if wrong else 'passed'}", flush=True)
        if wrong:
            print(wrong, flush=True)
        self.failed += bool(wrong)
        self.passed += not wrong

    def shared(self):
        """Makes the shared library, and says what it shows or wants too much."""
        library = self.room / "libgachuswi.so.1"
        whole = ["-Wl,--whole-archive", self.archive, "-Wl,--no-whole-archive"]
        made(["cc", "-shared", "-o", library, "-Wl,-soname,libgachuswi.so.1", f"-Wl,--version-script={TOP}/packaging/gachuswi.map", *whole])
        (self.room / "libgachuswi.so").symlink_to(library.name)
        shown = set(told(["nm", "-D", "--defined-only", "-j", library])[1].decode().split())
        wanted = {it.partition("@")[0] for it in told(["nm", "-D", "--undefined-only", "-j", library])[1].decode().split()}
        names = {it.partition("@")[0] for it in shown if not it.startswith("GACHUSWI_")}
        wrong = names ^ declared()
        return " ".join(sorted([*wrong, *(wanted - WANTED)]))

    def linked(self, source, way, *more):
        """A program in C, linked in one of the ways, and with more words for the compiler."""
        program = self.room / f"{pathlib.Path(source).stem}-{way}"
        by = {"shared": ["-L", self.room, "-lgachuswi", f"-Wl,-rpath,{self.room}"]}.get(way, [self.archive])
        how = {"sanitized": SANITIZED, "wrapped": WRAPPED}.get(way, [])
        made(["cc", *PLAIN, *how, "-o", program, source, *by, *more])
        return program

    def ways(self):
        """Ways to link a program, and what runs it."""
        yield "static", []
        yield "shared", []
        yield "sanitized", []
        if has_valgrind(self.quick):
            yield "valgrind", ["valgrind", "-q", "--leak-check=full", "--show-leak-kinds=all", "--error-exitcode=99"]

    def says(self, program, words, folder, wanted, runner=(), limited=False):
        """What is wrong with a run that has to print these bytes and end with 0, in a small stack or not."""
        how = {"preexec_fn": lambda: resource.setrlimit(resource.RLIMIT_STACK, (STACK, STACK))} if limited else {}
        status, said = told([*runner, program, *words], folder, **how)
        if status == 0 and said == wanted:
            return ""
        at = next((i for i, (a, b) in enumerate(zip(said, wanted)) if a != b), min(len(said), len(wanted)))
        line = said[:at].count(b"\n")
        lines = said.decode(errors="replace").splitlines()
        return f"status {status}; it differs at line {line + 1}: " + "\n".join(lines[line : line + 5])

    def memory(self, source, words, folder):
        status, said = told([self.linked(TESTS / source, "wrapped"), *words], folder)
        print(said.decode(errors="replace").splitlines()[-1] if said else "", flush=True)
        return said.decode(errors="replace")[-2000:] if status else ""

    def small_stack(self):
        name, words, folder, wanted = next(stored())
        return self.says(self.linked(TESTS / "scripts.c", "static"), words, folder, wanted, limited=True)

    def threads(self, runner):
        return self.says(self.linked(TESTS / "threads.c", "static"), FEW, SCRIPTS / "data", b"", runner)

    def beside_libsolv(self):
        program = self.linked(TESTS / "beside_libsolv.c", "static", *libsolv())
        return self.says(program, [], None, b"")

    def caller(self, page, program, behind=""):
        """Says what is wrong with a caller of a page: the first block in C behind these words, run as the blocks behind it say."""
        text = (TOP / page).read_text().partition(behind)[2] if behind else (TOP / page).read_text()
        found = re.search(r"```c\n(.*?)```\n.*?```\n(.*?)```\n.*?```\n(.*?)```\n", text, re.S)
        if not found:
            return f"{page} has no caller"
        source = self.room / program
        source.write_text(found[1])
        words = found[2].split("\n")[-2].split()
        return self.says(self.linked(source, "sanitized"), words[1:], TOP / "examples", found[3].encode())

    def caller_in_python(self):
        """Says what is wrong with the caller in Python of README.md, which prints what the one in C does before it."""
        text = (TOP / "README.md").read_text()
        found = re.search(r"and prints\n\n```\n([^`]*)```\n\nThe same in Python[^`]*```python\n(.*?)```\n", text, re.S)
        if not found:
            return "README.md has no caller in Python"
        source = self.room / "short_caller.py"
        source.write_text(found[2])
        return self.says(sys.executable, [source], None, found[1].encode(), ["env", f"LD_LIBRARY_PATH={self.room}"])

    def run(self):
        self.check("shared library", self.shared)
        for way, runner in self.ways():
            for program in ("calls", "worked"):
                self.check(f"{program}, {way}", lambda: self.says(self.linked(TESTS / f"{program}.c", way), [], None, b"", runner))
            for name, words, folder, wanted in stored():
                self.check(f"{name}, {way}", lambda: self.says(self.linked(TESTS / "scripts.c", way), words, folder, wanted, runner))
                for program in ("tasks", "drafts"):
                    self.check(f"{program} of {name}, {way}", lambda: self.says(self.linked(TESTS / f"{program}.c", way), words, folder, b"", runner))
        self.check("small stack", self.small_stack)
        self.check("threads", lambda: self.threads([]))
        if has_valgrind(self.quick):
            self.check("threads, helgrind", lambda: self.threads(["valgrind", "-q", "--tool=helgrind", "--error-exitcode=99"]))
        scripts = FEW if self.quick else script_words()
        self.check("memory refused", lambda: self.memory("memory.c", scripts, SCRIPTS / "data"))
        self.check("memory refused for tasks", lambda: self.memory("task_memory.c", scripts, SCRIPTS / "data"))
        if libsolv():
            self.check("beside libsolv", self.beside_libsolv)
        self.check("caller of docs/LIBRARY.md", lambda: self.caller("docs/LIBRARY.md", "caller.c"))
        self.check("caller by numbers of docs/LIBRARY.md", lambda: self.caller("docs/LIBRARY.md", "builder.c", "## A task built by calls"))
        self.check("caller of README.md", lambda: self.caller("README.md", "short_caller.c"))
        self.check("caller in Python of README.md", self.caller_in_python)


def script_words():
    """The words of a call of `scripts` that runs all scripts as solv_script_tests does."""
    words = []
    for name in (SCRIPTS / "args").read_text().split():
        option = OPTION_OF.get(name.partition("/")[0])
        words += [option, name] if option else [name]
    return words


def between(script):
    """What is printed between the rounds of a script."""
    return "".join(f"{line}\n" for line in script.read_text().splitlines() if line == "nextjob")


def stored():
    """Runs with a stored output: a name, words, the folder, and what is printed."""
    yield "test scripts", script_words(), SCRIPTS / "data", (SCRIPTS / "stdout").read_bytes()
    program = TOP / "crates/testsolv"
    words = (program / "args").read_text().split()
    yield "script of testsolv", words, program / "data", (program / "stdout").read_bytes() + f"0 {words[-1]}\n".encode()
    examples = TOP / "examples"
    scripts = sorted(examples.glob("*.t"))
    # each expects its lines, so that nothing is printed but what stands between two rounds
    printed = [f"{between(it)}0 {it.name}\n" for it in scripts]
    yield "examples", [it.name for it in scripts], examples, "".join(printed).encode()
    yield "proofs of an example", ["--proof", "problem.t"], examples, (examples / "problem.p").read_bytes() + b"0 problem.t\n"


def headers():
    """What compilers say of the headers, each by itself."""
    said = []
    for compiler in ("cc", "c++", "clang", "clang++"):
        if shutil.which(compiler):
            language = ["-std=c++17", "-x", "c++"] if compiler.endswith("++") else ["-std=c11", "-x", "c"]
            said += [told([compiler, *language, *STRICT, "-fsyntax-only", "-include", it, "/dev/null"])[1].decode() for it in HEADERS]
    return "".join(said)


def main():
    given = argparse.ArgumentParser(add_help=False)
    given.add_argument("--archive", action="append", default=[])
    given.add_argument("--over")
    given.add_argument("--only", default="")
    given.add_argument("--quick", action="store_true")
    given.add_argument("-h", "--help", action="store_true")
    said = given.parse_args()
    if said.help:
        print(__doc__)
        return 0
    given_archives = {name: pathlib.Path(file) for name, _, file in (it.partition("=") for it in said.archive)}
    for name, file in given_archives.items():
        if not file.is_file():
            stop(f"there is no archive {file} for {name}")
    for tool in ("cc", "c++", "ar", "nm", "rt"):
        if not shutil.which(tool):
            stop(f"there is no {tool}")
    with tempfile.TemporaryDirectory(prefix="c_tests-") as folder:
        room = pathlib.Path(folder)
        archives = given_archives or built(room, said.over and pathlib.Path(said.over).resolve())
        trials = [Trial(name, archive, room / name, said.only, said.quick) for name, archive in archives.items()]
        trials[0].check("headers", headers)
        for trial in trials:
            trial.run()
        passed, failed = sum(it.passed for it in trials), sum(it.failed for it in trials)
        print(f"{passed} passed, {failed} failed")
        return 1 if failed or not passed else 0


if __name__ == "__main__":
    try:
        sys.exit(main())
    except Unmade as why:
        stop(why)
