#!/usr/bin/env python3
"""Tries whether scripts come back: testsolv writes each as one text, and takes that text for the same script.

    tools/tests/written_again.py PROGRAM PATH ..

PROGRAM is a built testsolv. A PATH is a script, or a folder, of which every script (`*.t`) is taken, those of its folders too.
Each script is called in its own folder, so that the files that it names are found; its text is called in a temporary folder
with nothing else in it. Of a script that is read:

- `--write` writes it, and writes the text again: the bytes are the same.
- `-r` solves the script and the text: both streams and the status are the same, also where a limit or the budget ends it. Where
  it is not solved at all, as without memory, that counts as a difference.

A script that is refused by `--write`, or whose file cannot be read, has to be so without it, with the same line and status.
What differs is told, a line for each script, and so is a text of more than 67,108,864 bytes, which no script may have and which
is not read again. The last line counts, as `312 scripts: 301 came back, 11 refused`. The status is 1 where anything differs, and
2 where the words or the program are no good.

This is tried and not proved. It shows that these scripts came back, with this program as it was built; of any other script it
shows nothing. And it shows less than that a text says the same as its script: what is lost before it is written the first time,
and changes no answer, is seen neither in the bytes nor in the lines.
"""
import argparse
import collections
import concurrent.futures
import dataclasses
import enum
import os
import pathlib
import signal
import subprocess
import sys
import tempfile
from collections.abc import Iterable
from typing import NoReturn

# the most bytes that a script may have
MOST_BYTES = 67_108_864

# how testsolv ends: it did what it was asked for, a bad line, a file that cannot be read, words that it does not take
DONE, BAD_LINE, NOT_READ, USAGE = 0, 2, 3, 7
# and how it ends where a script that is read is solved: as expected or not, at a limit of the clauses, or with its budget spent
SOLVED = {0, 1, 2, 5}


class Fault(Exception):
    """Nothing more can be tried; the text says why."""


class Outcome(enum.Enum):
    """What became of a script, by the words of the count."""

    CAME_BACK = "came back"
    REFUSED = "refused"
    NOT_READ = "not read"
    TOO_LONG = "too long to be read again"
    DIFFERS = "with differences"


@dataclasses.dataclass(frozen=True)
class Verdict:
    """What became of a script, and what is to be told of it, if anything."""

    outcome: Outcome
    told: str | None = None


@dataclasses.dataclass(frozen=True)
class Run:
    """What a call of testsolv printed, and how it ended."""

    status: int
    out: bytes
    err: bytes


def run(program: pathlib.Path, script: pathlib.Path, *flags: str) -> Run:
    """Calls testsolv for a script, in the script's folder."""
    # (behind `--` a name may begin with `-`)
    ended = subprocess.run([str(program), *flags, "--", script.name], cwd=script.parent, stdin=subprocess.DEVNULL, capture_output=True, check=False)
    return Run(ended.returncode, ended.stdout, ended.stderr)


def shown(line: bytes | None, start: int) -> str:
    """A line as it is told, from a place on, and cut where it is long."""
    if line is None:
        return "missing"
    text = repr(line[start : start + 120].decode(errors="backslashreplace"))
    return f"{'..' if start > 0 else ''}{text}{'..' if start + 120 < len(line) else ''}"


def line_that_differs(found: bytes, wanted: bytes) -> str:
    """The first line in which two texts differ that are not the same, from somewhat before the place where it does."""
    ours, theirs = found.split(b"\n"), wanted.split(b"\n")
    at = next((i for i, (a, b) in enumerate(zip(ours, theirs)) if a != b), min(len(ours), len(theirs)))
    a, b = (lines[at] if at < len(lines) else None for lines in (ours, theirs))
    start = max(0, len(os.path.commonprefix([a or b"", b or b""])) - 60)
    return f"line {at + 1} is {shown(a, start)} and not {shown(b, start)}"


def said(ended: Run) -> str:
    """What a call said on its error stream, if anything, behind a colon."""
    text = ended.err.decode(errors="backslashreplace").strip()
    return f": {text}" if text else ""


def difference(found: Run, wanted: Run) -> str | None:
    """How a call differs from one that it should be like."""
    if found.status != wanted.status:
        return f"the status is {found.status} and not {wanted.status}{said(found)}"
    if found.out != wanted.out:
        return line_that_differs(found.out, wanted.out)
    if found.err != wanted.err:
        return f"on the error stream {line_that_differs(found.err, wanted.err)}"
    return None


def differs(what: str, found: Run, wanted: Run) -> Verdict | None:
    """The verdict where a call differs from one that it should be like."""
    told = difference(found, wanted)
    return None if told is None else Verdict(Outcome.DIFFERS, f"{what}: {told}")


def text_tried(program: pathlib.Path, script: pathlib.Path, written: Run) -> Verdict:
    """Tries the text of a script that was written."""
    if len(written.out) > MOST_BYTES:
        return Verdict(Outcome.TOO_LONG, f"its text has {len(written.out):,} bytes, more than a script may have, and is not read again")
    with tempfile.TemporaryDirectory(prefix="written_again.") as folder:
        text = pathlib.Path(folder, "written.t")
        text.write_bytes(written.out)
        wrong = differs("its text written again", run(program, text, "--write"), written)
        if wrong is not None:
            return wrong
        solved = run(program, script, "-r")
        if solved.status not in SOLVED:
            return Verdict(Outcome.DIFFERS, f"it was written, and not solved: the status is {solved.status}{said(solved)}")
        return differs("its text solved", run(program, text, "-r"), solved) or Verdict(Outcome.CAME_BACK)


def tried(program: pathlib.Path, script: pathlib.Path) -> Verdict:
    """Tries a script."""
    written = run(program, script, "--write")
    if written.status == USAGE:
        raise Fault(f"{program} does not take `--write -- {script.name}`{said(written)}")
    if written.status in (BAD_LINE, NOT_READ):
        refused = Verdict(Outcome.REFUSED if written.status == BAD_LINE else Outcome.NOT_READ)
        return differs("refused by --write, and without it", run(program, script), written) or refused
    wrong = differs("written", dataclasses.replace(written, out=b""), Run(DONE, b"", b""))
    return wrong or text_tried(program, script, written)


def scripts_below(path: pathlib.Path) -> list[pathlib.Path]:
    """The scripts that a word of the command line names."""
    if path.is_file():
        return [path]
    if not path.is_dir():
        raise Fault(f"{path}: there is no such script or folder")
    found = sorted(it for it in path.rglob("*.t") if it.is_file())
    if not found:
        raise Fault(f"{path}: there is no script (*.t) in this folder")
    return found


def scripts_of(paths: Iterable[pathlib.Path]) -> list[pathlib.Path]:
    """The scripts that the words of the command line name, each once."""
    return list({os.path.abspath(it): it for path in paths for it in scripts_below(path)}.values())


def progress(text: str) -> None:
    """Says on a terminal how far the work is, in place of what stood there."""
    if sys.stderr.isatty():
        print(f"\r\033[K{text}", end="", file=sys.stderr, flush=True)


def all_tried(program: pathlib.Path, scripts: list[pathlib.Path], jobs: int) -> collections.Counter[Outcome]:
    """Tries all scripts, several at once, and tells in their order what is to be told. How often each outcome came."""
    counts: collections.Counter[Outcome] = collections.Counter()
    with concurrent.futures.ThreadPoolExecutor(max_workers=jobs) as pool:
        # (a fault leaves out those that were not begun)
        verdicts = pool.map(lambda script: tried(program, script), scripts)
        try:
            for script, verdict in zip(scripts, verdicts):
                counts[verdict.outcome] += 1
                if verdict.told is not None:
                    progress("")
                    print(f"{script}: {verdict.told}", flush=True)
                progress(f"{counts.total()} of {len(scripts)}")
        finally:
            progress("")
    return counts


def count_line(counts: collections.Counter[Outcome]) -> str:
    """How many scripts there were, and how many came to each outcome; those that came back always."""
    parts = [f"{counts[it]} {it.value}" for it in Outcome if counts[it] or it is Outcome.CAME_BACK]
    count = counts.total()
    return f"{count} script{'' if count == 1 else 's'}: {', '.join(parts)}"


class Words(argparse.ArgumentParser):
    """The words of the command line, whose errors are one line."""

    def error(self, message: str) -> NoReturn:
        self.exit(2, f"{self.prog}: {message}\n")


def positive(word: str) -> int:
    """A number from 1."""
    if not (word.isascii() and word.isdigit()) or int(word) == 0:
        raise argparse.ArgumentTypeError(f"not a number from 1: {word}")
    return int(word)


def words() -> Words:
    # (the heading alone, since argparse would join the lines of the rest)
    it = Words(description=(__doc__ or "").split("\n", 1)[0], epilog="It is tried and not proved. The status is 1 where anything differs.")
    it.add_argument("program", metavar="PROGRAM", type=pathlib.Path, help="a built testsolv")
    it.add_argument("paths", metavar="PATH", nargs="+", type=pathlib.Path, help="a script, or a folder, of which every *.t below it is taken")
    jobs = os.cpu_count() or 1
    it.add_argument(
        "--jobs",
        metavar="N",
        type=positive,
        default=jobs,
        help=f"how many scripts are tried at once (without it one for each processor, here {jobs})",
    )
    return it


def main() -> None:
    args = words().parse_args()
    try:
        program = args.program.resolve()
        if not program.is_file():
            raise Fault(f"{args.program}: there is no such program")
        counts = all_tried(program, scripts_of(args.paths), args.jobs)
    except (Fault, OSError) as fault:
        print(f"written_again.py: {fault}", file=sys.stderr)
        sys.exit(2)
    except KeyboardInterrupt:
        print("written_again.py: interrupted", file=sys.stderr)
        sys.exit(130)
    print(count_line(counts))
    sys.exit(1 if counts[Outcome.DIFFERS] else 0)


if __name__ == "__main__":
    # (who reads the first lines alone ends it)
    signal.signal(signal.SIGPIPE, signal.SIG_DFL)
    main()
