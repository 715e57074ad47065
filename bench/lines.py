#!/usr/bin/env python3
"""Measures a built program on large diagrams and long scripts: lines.py PROGRAM

- Diagrams of about 64 KB, 256 KB and 1 MB of sums with decimals, and one of 1 MB of the longest texts, with a script
  without lines. Beside them: the time in which Python's reader of JSON makes the same bytes a tree, and its peak.
- Scripts of 250, 500 and 1,000 lines over 200 contracts: merges and tests in turn, and tests alone.

Times are milliseconds of wall time, each the least of RUNS runs (15 where the environment does not say), less the least
time of a run on a diagram without contracts. Memory is the peak of the resident set as GNU time tells it, since that of a
child of this process would count what this process holds; `over` is what is more than at start-up. Growth compares a
figure with the one of the line before: 4.0 for four times the bytes is linear. It fails where a run ends with another
status than 0.
"""
import json
import os
import subprocess
import sys
import tempfile
import time
import tracemalloc

RUNS = int(os.environ.get("RUNS", "15"))
TIMER = "/usr/bin/time"
PORTS = 24
ROWS = 100
EMPTY = '{"version":1,"contracts":[]}'


def sum_text(number):
    """A sum of 5 ports with decimals, another one for each number."""
    first, second, third = (f"unit_{(number * step) % PORTS}" for step in (1, 5, 7))
    return (
        f"0.{number % 89 + 10} {first} + {number % 7 + 1}.5 {second} - 2e-{number % 3 + 1} ({third} + 1/{number % 9 + 2} spare)"
        f" <= {number + 17}.25 + 3 load"
    )


def long_text(number):
    """A sum of at most 4,096 bytes over all ports."""
    text = f"{number}.5 load"
    port = 0
    while len(text) < 4060:
        text += f" + 0.{(number + port) % 900 + 100} unit_{port % PORTS}"
        port += 1
    return text + " <= 1"


def contract(number, rows, text):
    outputs = [f"unit_{port}" for port in range(PORTS)] + ["spare"]
    terms = [text(number * rows + row) for row in range(rows)]
    return {"name": f"view_{number}", "inputs": ["load"], "outputs": outputs, "assumptions": ["0 <= load <= 12.5"], "guarantees": terms}


def diagram(size, rows, text):
    """Contracts of these rows, as many as come to about this many bytes."""
    contracts = []
    length = 0
    while length < size:
        contracts.append(contract(len(contracts), rows, text))
        length += len(json.dumps(contracts[-1]))
    return json.dumps({"version": 1, "contracts": contracts})


def views():
    """200 contracts with 16 ports and 10 rows each; neighbours share ports."""
    contracts = []
    for number in range(200):
        outputs = [f"unit_{(number + port) % 24}" for port in range(15)]
        terms = [f"{row + 1}.5 unit_{(number + row) % 24} + unit_{(number + row + 3) % 24} <= {number + row} + load" for row in range(8)]
        contracts.append({"name": f"view_{number}", "inputs": ["load"], "outputs": outputs, "assumptions": ["0 <= load <= 12.5"], "guarantees": terms})
    return json.dumps({"version": 1, "contracts": contracts})


def test_line(name, view, number):
    """A test of two of the ports that a view has, and that its merges have."""
    return f"test {name} at load=6.25 unit_{(view + 3) % 24}={number}.5 unit_{(view + 4) % 24}=-1/3"


def merges_and_tests(lines):
    made = []
    for number in range(lines // 2):
        view = number % 200
        made.append(f"merge both_{number} = view_{view} view_{(number * 7 + 1) % 200}")
        made.append(test_line(f"both_{number}", view, number))
    return "\n".join(made) + "\n"


def tests(lines):
    return "\n".join(test_line(f"view_{number % 200}", number % 200, number) for number in range(lines)) + "\n"


class Bench:
    def __init__(self, program, room):
        self.program = program
        self.room = room
        self.has_timer = os.access(TIMER, os.X_OK)
        self.failed = False
        self.start, self.least_memory, _ = self.measure(EMPTY, "")

    def put(self, name, text):
        path = os.path.join(self.room, name)
        with open(path, "w", encoding="ascii") as file:
            file.write(text)
        return path

    def measure(self, diagram_text, script_text):
        """The least seconds of a run, its peak in KiB or None, and the bytes of its report."""
        call = [self.program, self.put("diagram.json", diagram_text), self.put("script.txt", script_text)]
        done = subprocess.run(call, stdout=subprocess.PIPE, check=False)
        if done.returncode != 0:
            self.failed = True
            print(f"FAILED: status {done.returncode}: {done.stdout[:120].decode(errors='replace').strip()}")
        least = None
        for _ in range(RUNS):
            begun = time.perf_counter()
            subprocess.run(call, stdout=subprocess.DEVNULL, check=False)
            took = time.perf_counter() - begun
            least = took if least is None else min(least, took)
        return least, self.peak(call), len(done.stdout)

    def peak(self, call):
        if not self.has_timer:
            return None
        told = os.path.join(self.room, "peak")
        subprocess.run([TIMER, "-f", "%M", "-o", told, *call], stdout=subprocess.DEVNULL, check=False)
        with open(told, encoding="ascii") as file:
            return int(file.read().split()[-1])

    def row(self, name, diagram_text, script_text, before):
        """Prints a line, and gives what the next line is compared with."""
        took, peak, report = self.measure(diagram_text, script_text)
        over = max(took - self.start, 0.0)
        more = None if peak is None else peak - self.least_memory
        growth = f"{over / before:6.2f}" if before else "     -"
        memory = "       -        -" if peak is None else f"{peak:8} {more:8}"
        print(f"{name:28} {len(diagram_text):9} {report:9} {over * 1000:9.2f} {growth} {memory}", end="")
        return over


def python_reader(text):
    """The least seconds in which Python makes the bytes a tree, and the KiB that it takes at most."""
    data = text.encode()
    least = None
    for _ in range(RUNS):
        begun = time.perf_counter()
        json.loads(data)
        took = time.perf_counter() - begun
        least = took if least is None else min(least, took)
    tracemalloc.start()
    json.loads(data)
    peak = tracemalloc.get_traced_memory()[1]
    tracemalloc.stop()
    return least, peak // 1024


def main(program):
    with tempfile.TemporaryDirectory() as room:
        bench = Bench(os.path.abspath(program), room)
        shown = "not told, since GNU time is not here" if bench.least_memory is None else f"{bench.least_memory} KiB"
        print(f"start-up: {bench.start * 1000:.2f} ms, peak {shown}; the times below are over this")
        heads = f"{'':28} {'bytes in':>9} {'bytes out':>9} {'ms':>9} {'growth':>6} {'peak KiB':>8} {'over':>8}"
        print(f"{heads} {'Python ms':>10} {'its KiB':>8}")
        before = None
        for kilobytes in (64, 256, 1024):
            text = diagram(kilobytes * 1000, ROWS, sum_text)
            before = bench.row(f"sums, {kilobytes} KB", text, "", before)
            took, peak = python_reader(text)
            print(f" {took * 1000:10.2f} {peak:8}")
        text = diagram(1_000_000, 12, long_text)
        bench.row("longest texts, 1 MB", text, "", None)
        took, peak = python_reader(text)
        print(f" {took * 1000:10.2f} {peak:8}")
        text = views()
        for name, script in (("merges and tests", merges_and_tests), ("tests", tests)):
            before = None
            for lines in (250, 500, 1000):
                before = bench.row(f"{name}, {lines} lines", text, script(lines), before)
                print()
        return 1 if bench.failed else 0


if len(sys.argv) != 2:
    sys.exit("usage: lines.py PROGRAM")
sys.exit(main(sys.argv[1]))
