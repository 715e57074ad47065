#!/usr/bin/env python3
"""Times whole runs of the simplex method for solves.sh, with the two programs given: solves.py PROVED PLAIN

For each shape and filling of the rows it prints the milliseconds of user time that a run takes in both programs, and their
ratio. Each is the least of RUNS runs, 5 where the environment does not say, the two programs in turn. It fails where the
two end in different ways.
"""
import os
import resource
import subprocess
import sys

RUNS = int(os.environ.get("RUNS", "5"))
MOST = 4096
# How many of 16 numbers are not 0, how great they are at most, columns, rows, and rounds.
FAMILIES = (
    (16, 9, 8, 16, 200),
    (16, 9, 8, 256, 4),
    (16, 1, 8, 1024, 8),
    (16, 1, 16, 64, 10),
    (4, 1, 16, 256, 1),
    (2, 1, 32, 64, 2),
    (2, 1, 32, 128, 1),
    (1, 1, 64, 128, 1),
)


def user_time(program, line):
    """The seconds of user time of a program on a line, and what it prints."""
    before = resource.getrusage(resource.RUSAGE_CHILDREN).ru_utime
    ran = subprocess.run([program], input=line + "\n", capture_output=True, text=True, check=True)
    return resource.getrusage(resource.RUSAGE_CHILDREN).ru_utime - before, ran.stdout


def least_times(programs, family):
    """For each program the least time of a run."""
    filled, top, columns, rows, rounds = family
    line = f"{filled} {top} {columns} {rows} 1 {MOST}"
    times, ends = {}, set()
    for _ in range(RUNS):
        for program in programs:
            time, printed = user_time(program, f"{line} {rounds}")
            ends.add(printed)
            # The programs solve once more than there are rounds.
            times[program] = min(time / (rounds + 1), times.get(program, time))
    if len(ends) != 1:
        sys.exit(f"bench: the ends differ at {line}: {sorted(ends)}")
    return times, ends.pop().strip()


def main(proved, plain):
    print(f"{'filled':6} {'at most':>7} {'shape':8} {'proved':>10} {'C++':>10} {'ratio':>6}  end")
    for family in FAMILIES:
        times, end = least_times((proved, plain), family)
        filled, top, columns, rows, _ = family
        ratio = f"{times[proved] / times[plain]:6.2f}" if times[plain] > 0 else "     -"
        print(f"{filled:2}/16  {top:7} {columns}x{rows:<6} {1000 * times[proved]:10.2f} {1000 * times[plain]:10.2f} {ratio}  {end}", flush=True)


main(*sys.argv[1:])
