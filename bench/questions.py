#!/usr/bin/env python3
"""Measures a built program on refinements, bounds, hidings and compositions: questions.py PROGRAM [WORD ..]

- Dense refinements: a contract of 8 and of 16 names, each within bounds, and as many rows over all names. Two others have 8 rows
  each: sums of these rows that are loosened, so that the answer is yes, and the same with one that is tightened, so that it is no.
- Wide refinements: 256 and 1,024 rows over 32 names, each within bounds and three of them in each other row, put together by
  merges, and 4 rows over four names each that follow from their bounds.
- Bounds: 16, 32 and 64 amounts of which each is at least 0, and half as many resources, and the best use of them.
- Drawn hidings: 5 and 6 names, each within bounds, twice as many rows over most of them and two more, and all names but two hidden.
- Lifted balls: the sum of 6 and of 8 amounts is at most 1, each amount is at least a name and its negative, and the amounts are
  hidden. What is left are the rows of an octahedron in so many dimensions: one for each choice of signs.
- Chains: 16 and 32 parts in a row, of which each takes what the one before gives, within bounds, and adds an error; one
  composition of all of them, and the greatest end. And 200 such parts, put together two at a time by 199 compositions.
- Stars: 8 and 12 units that each draw power by their duty and give off heat by their power, and a bus that assumes a sum of each;
  one composition, and the most heat, the least margin and the most duty that the whole allows.
- Missions: 7 steps of a satellite, in each of which it charges, sends, observes or corrects its course, put together one after the
  other; the least charge at the end, the most data, and the most time.
- The compositions of the examples.

Times are milliseconds of processor time, user and system, each the least of RUNS runs (3 where the environment does not say).
WORD .. is another program that is given the same two files: it is run in turn with the first, and `ratio` is the first one's time
over its own. The numbers are drawn by a generator with a fixed seed. It fails where a run of the first program ends with another
status than 0, or where an answer is not of the kind that is due.
"""
import json
import os
import random
import resource
import subprocess
import sys
import tempfile

RUNS = int(os.environ.get("RUNS", "3"))


def text_of(row):
    """A row, its factors by names and its bound, as a term."""
    factors, bound = row
    parts = []
    for name, factor in factors.items():
        if factor:
            sign = "-" if factor < 0 else "+"
            parts.append(f"{sign} {abs(factor)} {name}")
    left = " ".join(parts) or "0"
    return f"{left[2:] if left.startswith('+ ') else left} <= {bound}"


def contract(name, outputs, rows):
    return {"name": name, "inputs": [], "outputs": outputs, "assumptions": [], "guarantees": [text_of(row) for row in rows]}


def system(name, inputs, outputs, assumptions, guarantees):
    """A contract by its texts."""
    return {"name": name, "inputs": inputs, "outputs": outputs, "assumptions": assumptions, "guarantees": guarantees}


def sum_of(draw, rows, names, slack):
    """A sum of some rows by weights, with its bound loosened by the slack."""
    factors = dict.fromkeys(names, 0)
    bound = slack
    for row in draw.sample(rows, len(names) // 2 + 2):
        weight = draw.randint(1, 4)
        for name, factor in row[0].items():
            factors[name] += weight * factor
        bound += weight * row[1]
    return factors, bound


def within_bounds(draw, names):
    """A row over four names, each within 60, that is met where they are."""
    return {name: draw.choice((-1, 1)) for name in draw.sample(names, 4)}, 240


def dense(count):
    draw = random.Random(count)
    names = [f"x{number}" for number in range(count)]
    rows = [({name: sign}, draw.randint(20, 30)) for name in names for sign in (1, -1)]
    rows += [({name: draw.randint(-3, 3) for name in names}, draw.randint(10, 30)) for _ in names]
    follows = [sum_of(draw, rows, names, draw.randint(0, 3)) for _ in range(8)]
    # Where all names are 0 each row is met, and not this one.
    broken = [*follows[:-1], ({name: 1 for name in names}, -1)]
    contracts = [contract("A", names, rows), contract("Y", names, follows), contract("N", names, broken)]
    return {"contracts": contracts}, ["refine A Y", "refine A N"], ["yes", "no guarantee 7"]


def wide(count):
    draw = random.Random(count)
    names = [f"x{number}" for number in range(32)]
    rows = [({name: sign}, draw.randint(40, 60)) for name in names for sign in (1, -1)]
    while len(rows) < count:
        rows.append(({name: draw.choice((-2, -1, 1, 2)) for name in draw.sample(names, 3)}, draw.randint(60, 120)))
    parts = [rows[first:first + 250] for first in range(0, count, 250)]
    contracts = [contract(f"A{number}", names, part) for number, part in enumerate(parts)]
    contracts.append(contract("Y", names, [within_bounds(draw, names) for _ in range(4)]))
    lines = []
    last = "A0"
    for number in range(1, len(parts)):
        lines.append(f"merge M{number} = {last} A{number}")
        last = f"M{number}"
    return {"contracts": contracts}, [*lines, f"refine {last} Y"], ["yes"]


def best_use(count):
    draw = random.Random(count)
    names = [f"act{number}" for number in range(count)]
    rows = [({name: -1}, 0) for name in names]
    covered = iter(names * 8)
    for _ in range(count // 2):
        users = {next(covered): draw.randint(1, 5) for _ in range(8)}
        rows.append((users, draw.randint(30, 99)))
    goal = " + ".join(f"{draw.randint(2, 9)} {name}" for name in names)
    return {"contracts": [contract("P", names, rows)]}, [f"bound P max {goal}", "bound P min act0"], ["value", "value 0"]


def drawn(count):
    draw = random.Random(count)
    names = [f"x{number}" for number in range(count)]
    rows = []
    for _ in range(2 * count + 2):
        rows.append(({name: draw.randint(-3, 3) for name in draw.sample(names, count - 1)}, draw.randint(6, 12)))
    rows += [({name: sign}, draw.randint(9, 12)) for name in names for sign in (1, -1)]
    gone = " ".join(names[2:])
    return {"contracts": [contract("C", names, rows)]}, ["limit rows 4096", f"hide H = C {gone}"], ["outputs x0 x1"]


def lifted(count):
    names = [f"x{number}" for number in range(count)]
    amounts = [f"y{number}" for number in range(count)]
    rows = [({name: sign, amount: -1}, 0) for sign in (1, -1) for name, amount in zip(names, amounts)]
    rows.append(({amount: 1 for amount in amounts}, 1))
    gone = " ".join(amounts)
    rows_left = [f"outputs {' '.join(names)}"] + ["guarantee "] * 2**count
    return {"contracts": [contract("C", names + amounts, rows)]}, ["limit rows 4096", f"hide H = C {gone}"], rows_left


def links(count):
    """Parts p0, p1, .. in a row, of three contracts in turn: part K takes v(K) and gives v(K+1)."""
    contracts = [system(f"link_{error}", ["x"], ["y"], ["|x| <= 1000"], [f"|y - x| <= {error}"]) for error in (1, 2, 3)]
    wires = [{"x": f"v{place}", "y": f"v{place + 1}"} for place in range(count)]
    parts = [{"name": f"p{place}", "contract": f"link_{place % 3 + 1}", "wires": wires[place]} for place in range(count)]
    return {"contracts": contracts, "parts": parts}


def greatest_end(count):
    """The last part takes at most 1000, and adds its error."""
    return f"value {1000 + (count - 1) % 3 + 1}"


def chain(count):
    names = " ".join(f"p{place}" for place in range(count))
    return links(count), [f"compose R = {names}", f"bound R max v{count}"], [greatest_end(count)]


def chain_by_twos(count):
    lines = [f"compose R{place} = {f'R{place - 1}' if place > 1 else 'p0'} p{place}" for place in range(1, count)]
    return links(count), [*lines, f"bound R{count - 1} max v{count}"], [greatest_end(count)]


def star(count):
    draw = random.Random(count)
    places = range(count)
    contracts = []
    most_power, most_heat = 0, 0
    for place in places:
        base, slope, share = draw.randint(20, 80), draw.randint(40, 250), draw.randint(20, 45)
        duty, power, heat = f"duty{place}", f"power{place}", f"heat{place}"
        # Tenths and hundredths: base 35 is 3.5 W, share 31 is 0.31 of the power.
        contracts.append(system(f"unit{place}", [duty], [power, heat], [f"0 <= {duty} <= 1"], [
            f"{power} <= {base}e-1 + {slope}e-1 {duty}",
            f"{power} >= {8 * base}e-2 + {9 * slope}e-2 {duty}",
            f"{heat} <= {share}e-2 {power} + 0.75",
            f"{heat} >= {share - 10}e-2 {power}",
        ]))
        most_power += 10 * base + 6 * slope
        most_heat += share * (10 * base + 6 * slope) + 7500
    powers, heats = [f"power{place}" for place in places], [f"heat{place}" for place in places]
    contracts.append(system("bus", powers + heats, ["margin", "temperature"], [
        f"{' + '.join(powers)} <= {most_power}e-2",
        f"{' + '.join(heats)} <= {most_heat}e-4",
    ], [
        f"margin <= {most_power}e-2 - 1.02 ({' + '.join(powers)})",
        f"margin >= {most_power}e-2 - 1.08 ({' + '.join(powers)})",
        f"temperature <= 20 + 0.12 ({' + '.join(heats)})",
        "temperature >= 15",
    ]))
    units = " ".join(f"unit{place}" for place in places)
    duties = [f"duty{place}" for place in places]
    members = {"contracts": contracts, "nominal": dict.fromkeys(duties, "0.5")}
    lines = [f"compose R = {units} bus", "bound R max temperature", "bound R min margin", f"bound R max {' + '.join(duties)}"]
    return members, lines, ["outputs margin temperature", "value", "value", "value"]


# Of a step: how much charge an hour brings, at least and at most; what an hour takes at least to begin with; how the data and the
# error change, at least and at most.
STEPS = {
    "charge": ("2.5", "3.5", "0", ("0 time", "0.1 time"), ("0.8", "1.2")),
    "send": ("-3.2", "-2.8", "3.2", ("-3 time", "5 - 2.5 time"), ("0.5", "1")),
    "observe": ("-2.1", "-1.6", "2.1", ("0.7 time", "0.9 time"), ("0.2", "0.4")),
    "correct": ("-1.4", "-0.9", "1.4", ("-0.1 time", "0 time"), ("-1.5", "-0.5")),
}


def mission(count):
    inputs, outputs = ["charge", "data", "error", "time"], ["charge_out", "data_out", "error_out"]
    contracts = []
    for name, (least, most, taken, (less_data, more_data), (less_error, more_error)) in STEPS.items():
        contracts.append(system(name, inputs, outputs, [
            "0 <= time <= 10", f"charge >= {taken} time + 10", "charge <= 100 - 3.5 time", "data <= 100 - time", "error <= 6",
        ], [
            f"charge + {least} time <= charge_out <= charge + {most} time".replace("+ -", "- "),
            f"data + {less_data} <= data_out <= data + {more_data}".replace("+ -", "- "),
            f"error + {less_error} <= error_out <= error + {more_error}".replace("+ -", "- "),
        ]))
    # What is numbered K goes into step K and comes from the one before.
    parts, nominal = [], {"charge0": 60, "data0": 20, "error0": 1}
    for place in range(count):
        wires = {name: f"{name}{place}" for name in inputs}
        wires |= {f"{name}_out": f"{name}{place + 1}" for name in inputs[:3]}
        parts.append({"name": f"step{place}", "contract": list(STEPS)[place % len(STEPS)], "wires": wires})
        nominal[f"time{place}"] = 4
    lines = [f"compose R{place} = {f'R{place - 1}' if place > 1 else 'step0'} step{place}" for place in range(1, count)]
    last = f"R{count - 1}"
    times = " + ".join(f"time{place}" for place in range(count))
    lines += [f"bound {last} min charge{count}", f"bound {last} max data{count}", f"bound {last} max {times}"]
    return {"contracts": contracts, "parts": parts, "nominal": nominal}, lines, ["value", "value", "value"]


def example(name, due):
    """An example of this repository."""
    folder = os.path.join(os.path.dirname(os.path.abspath(__file__)), "..", "examples", name)
    with open(os.path.join(folder, "diagram.json"), encoding="utf-8") as file:
        members = json.load(file)
    with open(os.path.join(folder, "script.txt"), encoding="utf-8") as file:
        return members, file.read().splitlines(), due


def spent(words):
    """Processor time of a run in milliseconds, and what it printed."""
    before = resource.getrusage(resource.RUSAGE_CHILDREN)
    done = subprocess.run(words, stdout=subprocess.PIPE, check=False)
    after = resource.getrusage(resource.RUSAGE_CHILDREN)
    return 1000 * (after.ru_utime + after.ru_stime - before.ru_utime - before.ru_stime), done


def measure(label, question, programs, folder):
    members, lines, due = question
    diagram, script = os.path.join(folder, "diagram.json"), os.path.join(folder, "script.txt")
    with open(diagram, "w", encoding="utf-8") as file:
        json.dump({**members, "version": 1}, file)
    with open(script, "w", encoding="utf-8") as file:
        file.write("\n".join(lines) + "\n")
    least = [float("inf")] * len(programs)
    for _ in range(RUNS):
        for place, program in enumerate(programs):
            time, done = spent([*program, diagram, script])
            least[place] = min(least[place], time)
            if place == 0:
                kinds = tuple({answer.split(" ")[0] for answer in due})
                told = [line for line in done.stdout.decode().split("\n") if line.startswith(kinds)]
                if done.returncode != 0 or len(told) != len(due) or any(not a.startswith(b) for a, b in zip(told, due)):
                    sys.exit(f"bench: {label}: status {done.returncode}, answers {told}")
    figures = " ".join(f"{time:9.1f}" for time in least)
    ratio = f" {least[0] / least[1]:7.2f}" if len(least) > 1 else ""
    print(f"{label:24s} {figures}{ratio}")


def main():
    programs = [[sys.argv[1]]] + ([sys.argv[2:]] if len(sys.argv) > 2 else [])
    print(f"{'question':24s} {'ms':>9s}" + (f" {'beside':>9s} {'ratio':>7s}" if len(programs) > 1 else ""))
    with tempfile.TemporaryDirectory() as folder:
        for count in (8, 16):
            measure(f"dense refinement {count}", dense(count), programs, folder)
        for count in (256, 1024):
            measure(f"wide refinement {count}", wide(count), programs, folder)
        for count in (16, 32, 64):
            measure(f"bound {count}", best_use(count), programs, folder)
        for count in (5, 6):
            measure(f"drawn hiding {count}", drawn(count), programs, folder)
        for count in (6, 8):
            measure(f"lifted ball {count}", lifted(count), programs, folder)
        for count in (16, 32):
            measure(f"chain {count}", chain(count), programs, folder)
        measure("chain by twos 200", chain_by_twos(200), programs, folder)
        for count in (8, 12):
            measure(f"star {count}", star(count), programs, folder)
        measure("mission 7", mission(7), programs, folder)
        measure("solar chain", example("compose_solar_power", ["value 4160/9", "value 37"]), programs, folder)
        measure("brake by wire", example("compose_brake_by_wire", ["yes"]), programs, folder)


main()
