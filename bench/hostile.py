#!/usr/bin/env python3
"""Measures the cost of a message with hostile clients and large numbers, and compares it with the goals.

    hostile.py [--program P] [--only WORK]

Runs works of bench and prints a Markdown table. P is the program, by default bench/out/bench. The columns
are the work, its rows and reservations, the instructions of a round (callgrind), its microseconds of processor time (best of
five runs), the work that it is compared with, the ratios of both figures, the goal, and whether it is met. The cost of a
run without rounds is subtracted. --only prints the rows of one work. It needs valgrind.
"""
import argparse
import os
import re
import subprocess

TOP = os.path.dirname(os.path.dirname(os.path.realpath(__file__)))
HOLDERS = ["all", "beside", "away", "ended"]
MANY, MOST, FEW = 60_000, 1_000_000, 1_000
SUBNET, WHOLE = 4096, 200_000
# Each work with its rows and reservations (None for works on the table only), the work to compare it with, and the goal.
ROWS = [((f"renewal-{holder}", MANY, 0), ("renewal", MANY, 0), 3) for holder in HOLDERS[:3]]
ROWS += [((f"known-{holder}", MANY, 0), ("known", MANY, 0), 3) for holder in HOLDERS]
ROWS += [((f"other-{holder}", MANY, 0), ("other", MANY, 0), 3) for holder in HOLDERS + ["offers"]]
ROWS += [((work, MANY, SUBNET), (work, MANY, 0), 1.5) for work in ("new", "known", "request", "renewal", "full", "dora")]
ROWS += [((work, MANY, SUBNET), (work, MANY, 0), 1.5) for work in ("kept", "ended")]
ROWS += [((work, FEW, WHOLE), (work, FEW, 0), 1.5) for work in ("new", "known", "request", "renewal")]
ROWS += [(("dora", rows, 0), ("dora", FEW, 0), 1.8) for rows in (MANY, MOST)]
ROWS += [((work, MOST, None), (work, MANY, None), 2.5) for work in ("add", "rise")]
ROWS += [(("new", MANY, 0), ("renewal", MANY, 0), 2), (("offer", MANY, 0), ("renewal", MANY, 0), 2)]
ROWS += [(("cookie", FEW, 0), None, "2 us"), (("noise", FEW, 0), None, "2 us")]
ROUNDS = 1000


def words_of(program, work, rounds):
    name, rows, reservations = work
    numbers = [rows, rounds] if reservations is None else [rows, reservations, rounds]
    return [program, name, *map(str, numbers)]


def instructions(program, work, rounds):
    words = ["valgrind", "--tool=callgrind", "--callgrind-out-file=/dev/null", *words_of(program, work, rounds)]
    done = subprocess.run(words, capture_output=True, text=True, check=True)
    return int(re.search(r"refs:\s+([\d,]+)", done.stderr).group(1).replace(",", ""))


def microseconds(program, work, rounds):
    """The processor time of the best of five runs."""
    best = []
    for _ in range(5):
        process = subprocess.Popen(words_of(program, work, rounds), stdout=subprocess.DEVNULL)
        used = os.wait4(process.pid, 0)[2]
        best.append(used.ru_utime + used.ru_stime)
    return min(best) * 1e6


def instructions_of_round(program, work):
    return (instructions(program, work, ROUNDS) - instructions(program, work, 0)) / ROUNDS


def microseconds_of_round(program, work):
    nothing, rounds = microseconds(program, work, 0), 4
    while True:
        spent = microseconds(program, work, rounds) - nothing
        if spent > 200_000 or rounds >= 60_000:
            return spent / rounds
        rounds = min(60_000, rounds * max(2, min(50, int(250_000 / max(spent, 1)))))


def met(ratios, time, goal):
    """Whether a goal is met. The goal is a ratio, of instructions and of time, or else 2 us."""
    if not ratios:
        return "yes" if time <= 2 else "no"
    by_instructions, by_time = (ratio <= goal for ratio in ratios)
    if by_instructions and by_time:
        return "yes"
    return "by instructions" if by_instructions else "by time" if by_time else "no"


def shown(figure):
    return f"{figure:,.2f}" if figure < 100 else f"{figure:,.0f}"


def main():
    words = argparse.ArgumentParser()
    words.add_argument("--program", default=f"{TOP}/bench/out/bench")
    words.add_argument("--only")
    words = words.parse_args()
    known = {}

    def found(work):
        if work not in known:
            known[work] = instructions_of_round(words.program, work), microseconds_of_round(words.program, work)
        return known[work]

    print("| Work | Rows | Reservations | Instructions | us | Compared with | Ratio | Ratio of time | Goal | Met |")
    print("|---|---|---|---|---|---|---|---|---|---|", flush=True)
    for work, other, goal in ROWS:
        if words.only not in (None, work[0]):
            continue
        (name, rows, reservations), mine = work, found(work)
        ratios = [it / its for it, its in zip(mine, found(other))] if other else []
        beside = f"`{other[0]}` {other[1]:,}, {other[2] or 0:,}" if other else ""
        cells = [f"`{name}`", f"{rows:,}", f"{reservations or 0:,}", *map(shown, mine), beside, *(map(shown, ratios) if ratios else ["", ""])]
        print("| " + " | ".join(map(str, [*cells, goal, met(ratios, mine[1], goal)])) + " |", flush=True)


if __name__ == "__main__":
    main()
