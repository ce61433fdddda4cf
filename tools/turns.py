#!/usr/bin/env python3
"""Takes the time of programs on scripts, in turns.

    tools/turns.py N PROGRAM[,PROGRAM..] SCRIPT..

Each program is called with `-r SCRIPT`, one after the other; then comes the next script, and after the last one all begins anew, N
times, so that what else the machine does falls on all of them alike. It prints a table: for each script the least of the processor
seconds of each program, with those of the first one as a part of the last one's, then the medians in the same way, and the most memory
of each in MB of 2^20 bytes. What the programs print is not looked at.
"""
import os
import statistics
import subprocess
import sys


def measured(program, script):
    """The processor seconds of one run, and its greatest resident memory in kB."""
    with open(os.devnull, "w") as nowhere:
        running = subprocess.Popen([program, "-r", script], stdout=nowhere, stderr=nowhere)
        _, _, used = os.wait4(running.pid, 0)
    return used.ru_utime + used.ru_stime, used.ru_maxrss


def row(script, programs, runs):
    """A line of the table."""
    cells = [os.path.splitext(os.path.basename(script))[0]]
    for of in (min, statistics.median):
        seconds = [of([time for time, _ in runs[script, program]]) for program in programs]
        cells += [" and ".join(f"{s:.2f}" for s in seconds) + " s", f"{seconds[0] / seconds[-1]:.2f}"]
    cells.append(" and ".join(f"{max(memory for _, memory in runs[script, program]) / 1024:.0f}" for program in programs) + " MB")
    return "| " + " | ".join(cells) + " |"


def main():
    if len(sys.argv) < 4 or not sys.argv[1].isdigit():
        sys.exit(__doc__)
    programs, scripts = sys.argv[2].split(","), sys.argv[3:]
    runs = {(script, program): [] for script in scripts for program in programs}
    for _ in range(int(sys.argv[1])):
        for script in scripts:
            for program in programs:
                runs[script, program].append(measured(program, script))
    print("| script | least of each | of it | medians | of it | memory |\n|---|---|---|---|---|---|")
    for script in scripts:
        print(row(script, programs, runs))


if __name__ == "__main__":
    main()
