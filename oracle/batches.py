#!/usr/bin/env python3
"""Serves a day of long_day.py in batches of random sizes: batches.py SEED [EVENTS] [CLIENTS] [--program P]

The defaults are 20,000 events, 4,000 clients and the program crates/kdhcp/out/kdhcp. It runs console cases
(system-tests/cases) of `kdhcp serve --store` of random length with one store, each at a port from 1 to 32: in the cases,
that many datagrams arrive together. Each line must be the one from the judge, and so must the table at the end.
"""
import argparse
import json
import os
import random
import subprocess
import tempfile

import judge
from histories import ROOT
from long_day import DAY, day


def main():
    words = argparse.ArgumentParser()
    words.add_argument("seed", type=int)
    words.add_argument("events", type=int, nargs="?", default=20_000)
    words.add_argument("clients", type=int, nargs="?", default=4_000)
    words.add_argument("--program", default=os.path.join(ROOT, "crates", "kdhcp", "out", "kdhcp"))
    words = words.parse_args()
    chance = random.Random(words.seed)
    root, lines, wanted, table = day(chance, words.events, words.clients)
    cases, at, runs = [], 0, 0
    while at < len(lines):
        count, port = min(chance.randrange(1, 400), len(lines) - at), chance.randrange(1, 33)
        cases.append(f"$ kdhcp serve --config config.json --store day.db --port {port} --count {count}")
        cases += [f"< {line}" for line in lines[at : at + count]]
        cases.append("! serving ..")
        # A reply to a relay is sent to the server's own port number.
        cases += [line.replace(":67 ", f":{port} ", 1) for line in wanted[at : at + count]]
        cases.append("")
        at, runs = at + count, runs + 1
    cases.append(f"$ kdhcp leases --config config.json --store day.db --at {DAY}")
    cases += judge.lease_lines(table, DAY)
    with tempfile.TemporaryDirectory() as folder:
        with open(os.path.join(folder, "config.json"), "w", encoding="utf-8") as file:
            json.dump({"Dhcp4": root}, file)
        path = os.path.join(folder, "day.cases")
        with open(path, "w", encoding="utf-8") as file:
            file.write("\n".join([*cases, ""]))
        subprocess.run([os.path.join(ROOT, "system-tests", "cases"), words.program, path], check=True)
    print(f"{words.events} events in {runs} runs")


if __name__ == "__main__":
    main()
