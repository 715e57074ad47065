#!/usr/bin/env python3
"""Times pivots for pivots.sh, with the two programs given: pivots.py PROVED PLAIN

For each shape and filling of a tableau and each number of pivots it prints the nanoseconds of user time that a pivot takes
for a cell, in both programs, and their ratio; then what filling takes for a cell, which is taken off before. Each is the
least of RUNS runs, 7 where the environment does not say, the two programs in turn. It fails where their check sums differ.
"""
import os
import resource
import subprocess
import sys

RUNS = int(os.environ.get("RUNS", "7"))
SHAPES = ((32, 64), (64, 512))
# How many of 16 cells are not 0 at first, and about how many nanoseconds a cell of a pivot then takes.
FILLINGS = {16: 300, 4: 30, 1: 3}
PIVOTS = (2, 4, 8)
# About as many nanoseconds each run takes.
RUN = 120_000_000


def user_time(program, line):
    """The seconds of user time of a program on a line, and what it prints."""
    before = resource.getrusage(resource.RUSAGE_CHILDREN).ru_utime
    ran = subprocess.run([program], input=line + "\n", capture_output=True, text=True, check=True)
    return resource.getrusage(resource.RUSAGE_CHILDREN).ru_utime - before, ran.stdout


def least_times(programs, filled, lines, rows, pivots, rounds):
    """For each program the least time with pivots, and that of filling alone."""
    whole, filling, sums = {}, {}, set()
    for _ in range(RUNS):
        for program in programs:
            time, printed = user_time(program, f"{filled} {lines} {rows} {pivots} {rounds}")
            sums.add(printed)
            whole[program] = min(time, whole.get(program, time))
            time, _ = user_time(program, f"{filled} {lines} {rows} 0 {rounds}")
            filling[program] = min(time, filling.get(program, time))
    if len(sums) != 1:
        sys.exit(f"bench: the check sums differ at {filled} {lines} {rows} {pivots} {rounds}: {sorted(sums)}")
    return whole, filling


def main(proved, plain):
    print(f"{'filled':6} {'shape':8} {'pivots':>6} {'proved':>9} {'C++':>9} {'ratio':>6} {'fill proved':>12} {'fill C++':>9}")
    for lines, rows in SHAPES:
        for filled, guess in FILLINGS.items():
            for pivots in PIVOTS:
                cells = (lines + 2) * (lines + rows + 1)
                rounds = max(2, RUN // (cells * (guess * pivots + 15)))
                whole, filling = least_times((proved, plain), filled, lines, rows, pivots, rounds)
                # The programs fill and pivot once more than there are rounds.
                each = cells * (rounds + 1) / 1e9
                ours, theirs = ((whole[it] - filling[it]) / (each * pivots) for it in (proved, plain))
                ratio = f"{ours / theirs:6.2f}" if theirs > 0 else "     -"
                print(
                    f"{filled:2}/16  {lines}x{rows:<5} {pivots:6} {ours:9.2f} {theirs:9.2f} {ratio}"
                    f" {filling[proved] / each:12.2f} {filling[plain] / each:9.2f}",
                    flush=True,
                )


main(*sys.argv[1:])
