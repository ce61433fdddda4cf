#!/usr/bin/env python3
"""Tries what a program does where memory is refused, or where a read or a write fails: each call in turn, alone.

    tools/tests/refused_memory.py [--io] [--short] [--jobs N] PROGRAM WORD ..

PROGRAM is a built testsolv or proofcheck, and all words behind it are those of its command line; it is run in the current folder.
It is run once as it is. Then, for each number k from 1 on until a run needs no k-th call:

- Without `--io` its k-th allocation is refused. The run has to end with status 6 and print nothing on either stream, or else
  print and end as the undisturbed run.
- With `--io` its k-th read fails. The run has to end with status 3 and one line on the error stream, or with status 4 and
  prefixes of what the undisturbed run prints, or as the undisturbed run, where what is read is not looked at.
- With `--io` its k-th write fails. The run has to end with status 4 and prefixes of what the undisturbed run prints.
- With `--short` each read and each write takes one byte. By itself that is one run, which has to print and end as the
  undisturbed one; with `--io` it holds in all runs, whose calls are many then.

What goes otherwise is told, a line for each k. The last line counts, as `1,234 allocations: 1,233 ended with 6 and printed
nothing, 1 answered`. The status is 1 where anything went otherwise, and 2 where the words are no good, the program cannot be
tried, or nothing can be compiled.

The calls are those of the C library that the program makes by itself or through that library: malloc, calloc, realloc and their
kind, read, write and theirs. A small library in front of them (LD_PRELOAD) counts them and lets one fail; `cc` compiles it into
a temporary folder. A program that is linked statically has no such calls, and is refused.

This is tried and not proved. It shows what this program did on these words, with one call failing in each run; of two calls
that fail in one run it shows nothing.
"""
import argparse
import collections
import concurrent.futures
import dataclasses
import enum
import os
import pathlib
import shutil
import signal
import struct
import subprocess
import sys
import tempfile
import time
from collections.abc import Callable, Iterable, Iterator
from typing import NoReturn

# how testsolv and proofcheck end: a file cannot be read, a stream cannot be written, out of memory
NOT_READ, NOT_WRITTEN, NO_MEMORY = 3, 4, 6

# the longest time that a disturbed run may take, in times of the undisturbed one, and the least that it is given, in seconds
TIMES, LEAST_SECONDS = 100, 60

# Counts stand in a file that is shared with the program, so that they are there however it ends.
SHIM = r"""
#define _GNU_SOURCE
#include <errno.h>
#include <fcntl.h>
#include <stdint.h>
#include <stdlib.h>
#include <sys/mman.h>
#include <sys/syscall.h>
#include <sys/uio.h>
#include <unistd.h>

extern void *__libc_malloc(size_t);
extern void *__libc_calloc(size_t, size_t);
extern void *__libc_realloc(void *, size_t);
extern void *__libc_memalign(size_t, size_t);

enum { ALLOCATIONS, READS, WRITES, KINDS };

/* how many calls of each kind were made, and how many were refused; none before the library is set up */
struct shared { uint64_t made[KINDS]; uint64_t refused; uint64_t is_set_up; };
static struct shared *shared;
/* the number of the call of each kind that is refused, or 0 */
static uint64_t refused_call[KINDS];
static int is_short;

static uint64_t number_in(const char *name)
{
    const char *text = getenv(name);
    return text ? strtoull(text, 0, 10) : 0;
}

__attribute__((constructor)) static void set_up(void)
{
    const char *path = getenv("REFUSED_MEMORY_COUNTS");
    int file = path ? open(path, O_RDWR) : -1;
    if (file < 0)
        return;
    void *at = mmap(0, sizeof(struct shared), PROT_READ | PROT_WRITE, MAP_SHARED, file, 0);
    close(file);
    if (at == MAP_FAILED)
        return;
    refused_call[ALLOCATIONS] = number_in("REFUSED_MEMORY_ALLOCATION");
    refused_call[READS] = number_in("REFUSED_MEMORY_READ");
    refused_call[WRITES] = number_in("REFUSED_MEMORY_WRITE");
    is_short = number_in("REFUSED_MEMORY_SHORT") != 0;
    shared = at;
    shared->is_set_up = 1;
}

/* whether this call, which is counted here, is to be refused */
static int is_refused(int kind, int why)
{
    if (!shared || __atomic_add_fetch(&shared->made[kind], 1, __ATOMIC_SEQ_CST) != refused_call[kind])
        return 0;
    __atomic_add_fetch(&shared->refused, 1, __ATOMIC_SEQ_CST);
    errno = why;
    return 1;
}

void *malloc(size_t size)
{
    return is_refused(ALLOCATIONS, ENOMEM) ? 0 : __libc_malloc(size);
}

void *calloc(size_t count, size_t size)
{
    return is_refused(ALLOCATIONS, ENOMEM) ? 0 : __libc_calloc(count, size);
}

void *realloc(void *block, size_t size)
{
    return is_refused(ALLOCATIONS, ENOMEM) ? 0 : __libc_realloc(block, size);
}

void *reallocarray(void *block, size_t count, size_t size)
{
    size_t bytes;
    if (__builtin_mul_overflow(count, size, &bytes)) {
        errno = ENOMEM;
        return 0;
    }
    return realloc(block, bytes);
}

void *memalign(size_t alignment, size_t size)
{
    return is_refused(ALLOCATIONS, ENOMEM) ? 0 : __libc_memalign(alignment, size);
}

void *aligned_alloc(size_t alignment, size_t size)
{
    return memalign(alignment, size);
}

int posix_memalign(void **block, size_t alignment, size_t size)
{
    int before = errno;
    void *made = memalign(alignment, size);
    errno = before;
    if (!made)
        return ENOMEM;
    *block = made;
    return 0;
}

static size_t taken(size_t count)
{
    return is_short && count > 1 ? 1 : count;
}

ssize_t read(int file, void *into, size_t count)
{
    return is_refused(READS, EIO) ? -1 : syscall(SYS_read, file, into, taken(count));
}

ssize_t pread(int file, void *into, size_t count, off_t at)
{
    return is_refused(READS, EIO) ? -1 : syscall(SYS_pread64, file, into, taken(count), at);
}

ssize_t pread64(int file, void *into, size_t count, off_t at)
{
    return pread(file, into, count, at);
}

ssize_t write(int file, const void *from, size_t count)
{
    return is_refused(WRITES, EIO) ? -1 : syscall(SYS_write, file, from, taken(count));
}

ssize_t pwrite(int file, const void *from, size_t count, off_t at)
{
    return is_refused(WRITES, EIO) ? -1 : syscall(SYS_pwrite64, file, from, taken(count), at);
}

ssize_t pwrite64(int file, const void *from, size_t count, off_t at)
{
    return pwrite(file, from, count, at);
}

/* the names by which the C library calls them itself, and some compilers' libraries too */
ssize_t __read(int file, void *into, size_t count) __attribute__((alias("read")));
ssize_t __write(int file, const void *from, size_t count) __attribute__((alias("write")));

/* of several pieces the first that is not empty is taken, and of it one byte */
static ssize_t by_pieces(long call, int file, const struct iovec *pieces, int count)
{
    for (int i = 0; is_short && i < count; i++)
        if (pieces[i].iov_len > 0) {
            struct iovec one = { pieces[i].iov_base, 1 };
            return syscall(call, file, &one, 1);
        }
    return syscall(call, file, pieces, count);
}

ssize_t readv(int file, const struct iovec *pieces, int count)
{
    return is_refused(READS, EIO) ? -1 : by_pieces(SYS_readv, file, pieces, count);
}

ssize_t writev(int file, const struct iovec *pieces, int count)
{
    return is_refused(WRITES, EIO) ? -1 : by_pieces(SYS_writev, file, pieces, count);
}
"""

# as the struct that the library shares
SHARED = struct.Struct("=5Q")


class Fault(Exception):
    """Nothing more can be tried; the text says why."""


class Kind(enum.Enum):
    """A kind of calls, by what one of them is called, and by the variable that says which one is refused."""

    ALLOCATION = "allocation", "REFUSED_MEMORY_ALLOCATION"
    READ = "read", "REFUSED_MEMORY_READ"
    WRITE = "write", "REFUSED_MEMORY_WRITE"

    @property
    def word(self) -> str:
        return self.value[0]

    @property
    def variable(self) -> str:
        return self.value[1]


class Outcome(enum.Enum):
    """How a run came out, by the words of the count."""

    NO_MEMORY = f"ended with {NO_MEMORY} and printed nothing"
    NOT_READ = f"ended with {NOT_READ} and one line"
    NOT_WRITTEN = f"ended with {NOT_WRITTEN} and a prefix"
    ANSWERED = "answered"
    WRONG = "went otherwise"


@dataclasses.dataclass(frozen=True)
class Run:
    """What a call of the program printed, and how it ended."""

    status: int
    out: bytes
    err: bytes


@dataclasses.dataclass(frozen=True)
class Counted:
    """A run with its calls: how many of each kind were made, and how many were refused."""

    run: Run
    made: dict[Kind, int]
    refused: int


@dataclasses.dataclass(frozen=True)
class Verdict:
    """How a run came out, and what is to be told of it, if anything."""

    outcome: Outcome
    told: str | None = None


@dataclasses.dataclass(frozen=True)
class Program:
    """A program with the words of its command line, and the library that is put in front of it."""

    words: list[str]
    folder: pathlib.Path
    shim: pathlib.Path
    is_short: bool

    def run(self, seconds: float | None, **variables: str) -> Run:
        """Calls it, with these variables beside those that are there."""
        ended = subprocess.run(
            self.words, env={**os.environ, **variables}, stdin=subprocess.DEVNULL, capture_output=True, timeout=seconds, check=False
        )
        return Run(ended.returncode, ended.stdout, ended.stderr)

    def counted(self, seconds: float | None = None, refused: tuple[Kind, int] | None = None) -> Counted:
        """Calls it with one call refused, if any, and counts its calls."""
        with tempfile.NamedTemporaryFile(dir=self.folder, prefix="counts.") as counts:
            counts.write(bytes(SHARED.size))
            counts.flush()
            variables = {"LD_PRELOAD": str(self.shim), "REFUSED_MEMORY_COUNTS": counts.name}
            if self.is_short:
                variables["REFUSED_MEMORY_SHORT"] = "1"
            if refused is not None:
                variables[refused[0].variable] = str(refused[1])
            run = self.run(seconds, **variables)
            counts.seek(0)
            *made, count, is_set_up = SHARED.unpack(counts.read(SHARED.size))
        if not is_set_up:
            raise Fault(f"{self.words[0]}: no call of it can be refused, since it does not take a library in front of it; is it linked statically?")
        return Counted(run, dict(zip(Kind, made)), count)


def compiled(folder: pathlib.Path) -> pathlib.Path:
    """Compiles the library that is put in front of the program."""
    compiler = shutil.which("cc")
    if compiler is None:
        raise Fault("there is no cc, which compiles the library that is put in front of the program")
    source, made = folder / "refused.c", folder / "refused.so"
    source.write_text(SHIM)
    ran = subprocess.run(
        [compiler, "-O2", "-shared", "-fPIC", "-fno-builtin", "-o", str(made), str(source)], capture_output=True, text=True, check=False
    )
    if ran.returncode:
        why = ran.stderr.strip().splitlines() or [f"it ended with status {ran.returncode}"]
        raise Fault(f"cc did not compile the library that is put in front of the program: {why[0]}")
    return made


def printed(text: bytes) -> str:
    """What a stream has, as it is told, and cut where it is long."""
    if not text:
        return "nothing"
    return f"{text[:80].decode(errors='backslashreplace')!r}{'..' if len(text) > 80 else ''}"


def ending(run: Run) -> str:
    """How a run ended, and what it printed."""
    how = f"signal {-run.status}" if run.status < 0 else f"status {run.status}"
    return f"it ended with {how}, and printed {printed(run.out)} and on the error stream {printed(run.err)}"


def is_front(run: Run, whole: Run) -> bool:
    """Whether what a run printed is a prefix of what another did, on each stream."""
    return whole.out.startswith(run.out) and whole.err.startswith(run.err)


def is_one_line(text: bytes) -> bool:
    return text.endswith(b"\n") and text.count(b"\n") == 1


def of_allocation(run: Run, undisturbed: Run) -> Outcome:
    """How a run came out of which an allocation was refused."""
    if run == Run(NO_MEMORY, b"", b""):
        return Outcome.NO_MEMORY
    return Outcome.ANSWERED if run == undisturbed else Outcome.WRONG


def of_read(run: Run, undisturbed: Run) -> Outcome:
    """How a run came out of which a read failed."""
    if run == undisturbed:
        return Outcome.ANSWERED
    if run.status == NOT_READ and not run.out and is_one_line(run.err):
        return Outcome.NOT_READ
    return Outcome.NOT_WRITTEN if run.status == NOT_WRITTEN and is_front(run, undisturbed) else Outcome.WRONG


def of_write(run: Run, undisturbed: Run) -> Outcome:
    """How a run came out of which a write failed."""
    return Outcome.NOT_WRITTEN if run.status == NOT_WRITTEN and is_front(run, undisturbed) else Outcome.WRONG


OUTCOME_OF: dict[Kind, Callable[[Run, Run], Outcome]] = {Kind.ALLOCATION: of_allocation, Kind.READ: of_read, Kind.WRITE: of_write}


def tried(program: Program, undisturbed: Run, seconds: float, kind: Kind, call: int) -> Verdict:
    """Runs the program with one call refused."""
    try:
        counted = program.counted(seconds, (kind, call))
    except subprocess.TimeoutExpired:
        return Verdict(Outcome.WRONG, f"it did not end within {seconds:.0f} seconds")
    if counted.refused != 1:
        return Verdict(Outcome.WRONG, f"it made {counted.made[kind]:,} calls of this kind alone, so no two runs of it are alike")
    outcome = OUTCOME_OF[kind](counted.run, undisturbed)
    return Verdict(outcome, ending(counted.run) if outcome is Outcome.WRONG else None)


def progress(text: str) -> None:
    """Says on a terminal how far the work is, in place of what stood there."""
    if sys.stderr.isatty():
        print(f"\r\033[K{text}", end="", file=sys.stderr, flush=True)


def in_order(pool: concurrent.futures.Executor, jobs: int, work: Callable[[int], Verdict], calls: Iterable[int]) -> Iterator[tuple[int, Verdict]]:
    """The verdicts on these calls, in their order. No more of them are begun than are soon looked at."""
    begun: collections.deque[tuple[int, concurrent.futures.Future[Verdict]]] = collections.deque()
    try:
        for call in calls:
            begun.append((call, pool.submit(work, call)))
            if len(begun) > 4 * jobs:
                first, verdict = begun.popleft()
                yield first, verdict.result()
        while begun:
            first, verdict = begun.popleft()
            yield first, verdict.result()
    finally:
        for _, rest in begun:
            rest.cancel()


def all_tried(program: Program, whole: Counted, seconds: float, kind: Kind, jobs: int) -> collections.Counter[Outcome]:
    """Refuses each call of a kind in turn, several runs at once, and tells in their order what is to be told. How often each outcome came."""
    counts: collections.Counter[Outcome] = collections.Counter()
    total = whole.made[kind]
    with concurrent.futures.ThreadPoolExecutor(max_workers=jobs) as pool:
        try:
            for call, verdict in in_order(pool, jobs, lambda call: tried(program, whole.run, seconds, kind, call), range(1, total + 1)):
                counts[verdict.outcome] += 1
                if verdict.told is not None:
                    progress("")
                    print(f"{kind.word} {call}: {verdict.told}", flush=True)
                progress(f"{kind.word} {call:,} of {total:,}")
        finally:
            progress("")
    return counts


def count_text(kind: Kind, counts: collections.Counter[Outcome]) -> str:
    """How many calls of a kind there were, and how many runs came out in each way."""
    total = counts.total()
    parts = [f"{counts[it]:,} {it.value}" for it in Outcome if counts[it]]
    return f"{total:,} {kind.word}{'' if total == 1 else 's'}{': ' if parts else ''}{', '.join(parts)}"


def as_it_is(program: Program) -> Run:
    """The run of the program by itself."""
    try:
        run = program.run(None)
    except OSError as fault:
        raise Fault(f"{program.words[0]}: it cannot be run: {fault.strerror}") from fault
    if run.status in (NO_MEMORY, NOT_WRITTEN):
        raise Fault(f"{program.words[0]}: nothing can be told apart, since by itself {ending(run)}")
    return run


def report(program: Program, is_io: bool, jobs: int) -> bool:
    """Tries all that is asked for and prints the count. Whether all went as it has to."""
    plain = as_it_is(program)
    started = time.monotonic()
    whole = program.counted()
    seconds = max(LEAST_SECONDS, TIMES * (time.monotonic() - started))
    if whole.run != plain:
        print(f"with {'short' if program.is_short else 'counted'} calls {ending(whole.run)}; by itself {ending(plain)}")
        return False
    if program.is_short and not is_io:
        print(f"{whole.made[Kind.READ]:,} reads and {whole.made[Kind.WRITE]:,} writes, of one byte at most: {Outcome.ANSWERED.value}")
        return True
    kinds = [Kind.READ, Kind.WRITE] if is_io else [Kind.ALLOCATION]
    counts = {kind: all_tried(program, whole, seconds, kind, jobs) for kind in kinds}
    print("; ".join(count_text(kind, counts[kind]) for kind in kinds))
    return not any(counts[kind][Outcome.WRONG] for kind in kinds)


class Words(argparse.ArgumentParser):
    """The words of the command line, whose errors are one line."""

    def error(self, message: str) -> NoReturn:
        self.exit(2, f"{self.prog}: {message}\n")


def positive(word: str) -> int:
    """A number from 1."""
    if not (word.isascii() and word.isdigit()) or int(word) == 0:
        raise argparse.ArgumentTypeError(f"not a number from 1: {word}")
    return int(word)


def words() -> Words:
    # (the heading alone, since argparse would join the lines of the rest)
    it = Words(description=(__doc__ or "").split("\n", 1)[0], epilog="It is tried and not proved. The status is 1 where anything went otherwise.")
    it.add_argument("--io", action="store_true", help="let each read and each write fail in turn, and no allocation")
    it.add_argument("--short", action="store_true", help="let each read and each write take one byte; without --io that is one run")
    jobs = os.cpu_count() or 1
    it.add_argument(
        "--jobs", metavar="N", type=positive, default=jobs, help=f"how many runs there are at once (without it one for each processor, here {jobs})"
    )
    it.add_argument("program", metavar="PROGRAM", type=pathlib.Path, help="a built testsolv or proofcheck")
    it.add_argument("words", metavar="WORD", nargs=argparse.REMAINDER, help="the words of its command line")
    return it


def main() -> None:
    args = words().parse_args()
    try:
        program = args.program.resolve()
        if not program.is_file():
            raise Fault(f"{args.program}: there is no such program")
        with tempfile.TemporaryDirectory(prefix="refused_memory.") as folder:
            made = Program([str(program), *args.words], pathlib.Path(folder), compiled(pathlib.Path(folder)), args.short)
            is_right = report(made, args.io, args.jobs)
    except (Fault, OSError) as fault:
        print(f"refused_memory.py: {fault}", file=sys.stderr)
        sys.exit(2)
    except KeyboardInterrupt:
        print("refused_memory.py: interrupted", file=sys.stderr)
        sys.exit(130)
    sys.exit(0 if is_right else 1)


if __name__ == "__main__":
    # (who reads the first lines alone ends it)
    signal.signal(signal.SIGPIPE, signal.SIG_DFL)
    main()
