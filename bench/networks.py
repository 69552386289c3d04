#!/usr/bin/env python3
"""Measures a message in a shared network of 64 subnets, beside the same message in its last subnet alone.

    networks.py [--program P] [--times]

P is the program, by default crates/kdhcp/out/kdhcp. `replay --kea` handles messages of each kind, over leases that fill the
first 63 subnets of the network. It prints a Markdown table: the instructions of a message (callgrind, over 1,500), their ratio
and the goal for it, and the microseconds of processor time (over 50,000, best of five runs). What the same run takes without
these messages is subtracted. With --times each subnet has a lifetime of its own. It needs valgrind.
"""
import argparse
import json
import os
import re
import subprocess
import tempfile

TOP = os.path.dirname(os.path.dirname(os.path.realpath(__file__)))
SERVER, RELAY = bytes([10, 255, 0, 2]), bytes([10, 255, 0, 1])
SUBNETS, SMALL, COUNTED, TIMED = 64, 4, 1_500, 50_000
DISCOVER, REQUEST = 1, 3
VALGRIND = ["valgrind", "--tool=callgrind", "--callgrind-out-file=/dev/null"]


def dotted(address):
    return ".".join(map(str, address))


def configuration(first, has_times):
    """A network of the subnets from this one to the last. All but the last have small pools."""
    sizes = [(number, 190 if number == SUBNETS else SMALL) for number in range(first, SUBNETS + 1)]
    subnets = [
        {"id": number, "subnet": f"10.{number}.0.0/24", "pools": [{"pool": f"10.{number}.0.10 - 10.{number}.0.{9 + size}"}]}
        for number, size in sizes
    ]
    for subnet in subnets if has_times else []:
        subnet["valid-lifetime"] = 100_000_000 + subnet["id"]
    link = {"name": "link", "relay": {"ip-addresses": [dotted(RELAY)]}, "subnet4": subnets}
    return {"Dhcp4": {"valid-lifetime": 100_000_000, "offer-lifetime": 1, "shared-networks": [link]}}


def message(kind, client, more=b"", ciaddr=bytes(4), giaddr=RELAY):
    hardware = b"\x02" + client.to_bytes(5, "big")
    header = bytes([1, 1, 6, 0]) + bytes(8) + ciaddr + bytes(8) + giaddr + hardware.ljust(16, b"\0") + bytes(192)
    return (header + bytes.fromhex("63825363") + bytes([53, 1, kind]) + more + b"\xff").hex()


def leased(client, address):
    return message(REQUEST, client, bytes([54, 4]) + SERVER + bytes([50, 4]) + address)


def events(first, kind, count):
    """Leases that fill the small pools, and one of the last subnet; then messages of a kind, two seconds apart."""
    places = [bytes([10, number, 0, 10 + at]) for number in range(first, SUBNETS) for at in range(SMALL)]
    own = bytes([10, SUBNETS, 0, 10])
    lines = [leased(client, address) for client, address in enumerate([*places, own], 1)]
    if kind == "renewal":
        lines += [message(REQUEST, len(lines), ciaddr=own, giaddr=bytes(4))] * count
    else:
        lines += [message(DISCOVER, 1_000_000 + at) for at in range(count)]
    return "".join(f"{1000 + 2 * at} {line}\n" for at, line in enumerate(lines))


class Runs:
    """Runs of `replay` over a network from one subnet on."""

    def __init__(self, program, folder, first, has_times):
        self.first, self.lines = first, f"{folder}/lines"
        with open(f"{folder}/kea.json", "w", encoding="utf-8") as file:
            json.dump(configuration(first, has_times), file)
        self.words = [program, "replay", "--kea", f"{folder}/kea.json", "--server-address", dotted(SERVER)]

    def write(self, kind, count):
        with open(self.lines, "w", encoding="ascii") as file:
            file.write(events(self.first, kind, count))

    def instructions(self, kind, count):
        self.write(kind, count)
        with open(self.lines, encoding="ascii") as lines:
            done = subprocess.run([*VALGRIND, *self.words], stdin=lines, stdout=subprocess.DEVNULL, stderr=subprocess.PIPE, text=True, check=True)
        return int(re.search(r"refs:\s+([\d,]+)", done.stderr).group(1).replace(",", ""))

    def microseconds(self, kind, count):
        """The processor time of the best of five runs."""
        self.write(kind, count)
        best = []
        for _ in range(5):
            with open(self.lines, encoding="ascii") as lines:
                process = subprocess.Popen(self.words, stdin=lines, stdout=subprocess.DEVNULL)
                _, status, used = os.wait4(process.pid, 0)
            if status:
                raise SystemExit(f"networks.py: replay ended with {status}")
            best.append(used.ru_utime + used.ru_stime)
        return min(best) * 1e6

    def of_message(self, kind):
        counted = (self.instructions(kind, COUNTED) - self.instructions(kind, 0)) / COUNTED
        return counted, (self.microseconds(kind, TIMED) - self.microseconds(kind, 0)) / TIMED


def main():
    words = argparse.ArgumentParser(description=__doc__, formatter_class=argparse.RawDescriptionHelpFormatter)
    words.add_argument("--program", default=f"{TOP}/crates/kdhcp/out/kdhcp")
    words.add_argument("--times", action="store_true")
    words = words.parse_args()
    program = os.path.abspath(words.program)
    print("| Message | In the network | In its last subnet | Ratio | Goal | us | us |\n|---|---|---|---|---|---|---|", flush=True)
    with tempfile.TemporaryDirectory() as folder:
        for kind, goal in (("DISCOVER", 3), ("renewal", 1.3)):
            (whole, longer), (last, shorter) = (Runs(program, folder, first, words.times).of_message(kind) for first in (1, SUBNETS))
            print(f"| {kind} | {whole:,.0f} | {last:,.0f} | {whole / last:.2f} | {goal} | {longer:.1f} | {shorter:.1f} |", flush=True)


if __name__ == "__main__":
    main()
