#!/usr/bin/env python3
"""Tries refused_memory.py on two small programs in C: one that does what it has to where a call fails, and one that does not.

    tools/tests/test_refused_memory.py

Where there is no `cc` nothing is tried.
"""
import pathlib
import shutil
import subprocess
import sys
import tempfile

TOOL = pathlib.Path(__file__).with_name("refused_memory.py")

# prints the file that its word names; of its four allocations the second is not needed
PROGRAM = r"""
#include <fcntl.h>
#include <stdlib.h>
#include <string.h>
#include <unistd.h>

static int put(int to, const char *text, size_t count)
{
    while (count > 0) {
        ssize_t done = write(to, text, count);
        if (done <= 0)
            return 0;
        text += done;
        count -= done;
#ifdef WRONG
        return 1;
#endif
    }
    return 1;
}

int main(int argc, char **argv)
{
    size_t room = 4, used = 0;
#ifdef WRONG
    put(1, "begun\n", 6);
#endif
    char *text = malloc(room);
    if (!text)
        return 6;
    volatile char *spare = malloc(1);
#ifndef WRONG
    if (spare)
#endif
        *spare = 0;
    int file = open(argv[argc - 1], O_RDONLY);
    for (;;) {
        if (used == room) {
            char *more = realloc(text, 2 * room);
#ifdef WRONG
            if (!more)
                break;
#endif
            if (!more)
                return 6;
            text = more;
            room *= 2;
        }
        ssize_t got = read(file, text + used, room - used);
#ifndef WRONG
        if (got < 0) {
            const char *line = "program: cannot read\n";
            return put(2, line, strlen(line)) ? 3 : 4;
        }
#endif
        if (got <= 0)
            break;
        used += got;
    }
    return put(1, text, used) ? 0 : 4;
}
"""

RIGHT = {
    "": "4 allocations: 3 ended with 6 and printed nothing, 1 answered\n",
    "--io": "4 reads: 4 ended with 3 and one line; 1 write: 1 ended with 4 and a prefix\n",
    "--short": "12 reads and 11 writes, of one byte at most: answered\n",
    "--io --short": "12 reads: 12 ended with 3 and one line; 11 writes: 11 ended with 4 and a prefix\n",
}

WRONG = {
    "": r"""allocation 1: it ended with status 6, and printed 'begun\n' and on the error stream nothing
allocation 2: it ended with signal 11, and printed 'begun\n' and on the error stream nothing
allocation 3: it ended with status 0, and printed 'begun\n0123' and on the error stream nothing
allocation 4: it ended with status 0, and printed 'begun\n01234567' and on the error stream nothing
4 allocations: 4 went otherwise
""",
    "--io": r"""read 1: it ended with status 0, and printed 'begun\n' and on the error stream nothing
read 2: it ended with status 0, and printed 'begun\n0123' and on the error stream nothing
read 3: it ended with status 0, and printed 'begun\n01234567' and on the error stream nothing
write 1: it ended with status 0, and printed '0123456789\n' and on the error stream nothing
4 reads: 1 answered, 3 went otherwise; 2 writes: 1 ended with 4 and a prefix, 1 went otherwise
""",
    "--short": r"""with short calls it ended with status 0, and printed 'b0' and on the error stream nothing; by itself it ended with status 0, and printed 'begun\n0123456789\n' and on the error stream nothing
""",
}


def same(what, found, wanted):
    if found != wanted:
        sys.exit(f"{what}: found\n{found}\nand not\n{wanted}")


def compiled(folder, name, *flags):
    """Compiles the program, and gives its name, or none where these flags are not taken."""
    source = pathlib.Path(folder, "program.c")
    source.write_text(PROGRAM)
    ran = subprocess.run(["cc", *flags, "-O0", "-w", "-o", name, source], capture_output=True, text=True, cwd=folder)
    return None if ran.returncode else f"./{name}"


def run(folder, *words):
    ran = subprocess.run([sys.executable, TOOL, *words], capture_output=True, text=True, cwd=folder)
    return ran.returncode, ran.stdout, ran.stderr


def main():
    if shutil.which("cc") is None:
        print("left out, since there is no cc")
        return
    with tempfile.TemporaryDirectory() as folder:
        pathlib.Path(folder, "digits").write_text("0123456789\n")
        right, wrong, static = compiled(folder, "right"), compiled(folder, "wrong", "-DWRONG"), compiled(folder, "static", "-static")
        for flags, told in RIGHT.items():
            same(f"the right program, {flags}", run(folder, *flags.split(), right, "--io", "digits"), (0, told, ""))
        for flags, told in WRONG.items():
            same(f"the wrong program, {flags}", run(folder, *flags.split(), wrong, "digits"), (1, told, ""))
        refused = f"refused_memory.py: {pathlib.Path(folder).resolve() / 'static'}: no call of it can be refused, since it does not take a library in front of it; is it linked statically?\n"
        if static:
            same("a static program", run(folder, static, "digits"), (2, "", refused))
        same("no program", run(folder, "./none"), (2, "", "refused_memory.py: none: there is no such program\n"))
    print("as it should be")


if __name__ == "__main__":
    main()
