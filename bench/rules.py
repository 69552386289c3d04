#!/usr/bin/env python3
"""Counts the instructions of a message of each kind, for one program or for several side by side.

    rules.py [PROGRAM..]

The programs are by default crates/kdhcp/out/kdhcp. `replay --config` handles 1,000 messages of each kind over 300 leases, with
two class tests, eight subnets of 32 reservations and three lists of options; nothing gives boot fields. It prints a Markdown
table: the instructions of a message by callgrind, less those of the run without these messages, and the ratio to those of the
first program. It stops if the programs print different lines. It needs valgrind.
"""
import json
import os
import re
import subprocess
import sys
import tempfile

TOP = os.path.dirname(os.path.dirname(os.path.realpath(__file__)))
SERVER, RELAY = bytes([10, 0, 0, 2]), bytes([10, 1, 0, 1])
LEASES, COUNTED, SUBNETS, RESERVED = 300, 1_000, 8, 32
DISCOVER, REQUEST, DECLINE, RELEASE, INFORM = 1, 3, 4, 7, 8
VALGRIND = ["valgrind", "--tool=callgrind", "--callgrind-out-file=/dev/null"]
ASKED = bytes([55, 6, 1, 3, 6, 15, 42, 51])


def dotted(address):
    return ".".join(map(str, address))


def configuration():
    """Eight subnets, options of all, of a subnet and of a class, and two classes with tests."""
    reserved = lambda number, at: {"hw-address": f"06:00:00:{number:02x}:00:{at:02x}", "ip-address": f"10.{number}.0.{20 + at}"}
    subnets = [
        {
            "subnet": f"10.{number}.0.0/16",
            "pools": [{"pool": f"10.{number}.1.0 - 10.{number}.255.250"}],
            "option-data": [{"code": 3, "csv-format": False, "data": f"0A{number:02X}0001"}, {"code": 15, "csv-format": False, "data": "6578616D706C65"}],
            "reservations": [reserved(number, at) for at in range(RESERVED)],
        }
        for number in range(1, SUBNETS + 1)
    ]
    classes = [
        {"name": "phones", "test": "substring(option[60].hex, 0, 5) == 'phone'", "option-data": [{"code": 42, "csv-format": False, "data": "0A000003"}]},
        {"name": "port", "test": "option[82].exists and option[12].exists"},
    ]
    options = [{"code": 6, "csv-format": False, "data": "0A0000030A000004"}]
    return {"Dhcp4": {"server-address": dotted(SERVER), "valid-lifetime": 100_000_000, "option-data": options, "client-classes": classes, "subnet4": subnets}}


def message(kind, client, more=b"", ciaddr=bytes(4), giaddr=RELAY):
    hardware = b"\x02" + client.to_bytes(5, "big")
    header = bytes([1, 1, 6, 0]) + bytes(8) + ciaddr + bytes(8) + giaddr + hardware.ljust(16, b"\0") + bytes(192)
    own = bytes([61, 7, 1]) + hardware + bytes([60, 6]) + b"phone7" + bytes([12, 4]) + b"desk"
    return (header + bytes.fromhex("63825363") + bytes([53, 1, kind]) + own + ASKED + more + b"\xff").hex()


def address_of(client):
    return bytes([10, 1, 1 + client // 250, client % 250])


def asked(address):
    return bytes([54, 4]) + SERVER + bytes([50, 4]) + address


def leased(client):
    return message(REQUEST, client, asked(address_of(client)))


def messages(kind):
    """The messages of a kind."""
    for at in range(COUNTED):
        own, new = at % LEASES, 1_000_000 + at
        if kind == "DISCOVER, new client":
            yield message(DISCOVER, new)
        elif kind == "DISCOVER, own lease":
            yield message(DISCOVER, own)
        elif kind == "DORA":
            yield message(DISCOVER, LEASES + at // 2) if at % 2 == 0 else leased(LEASES + at // 2)
        elif kind == "renewal":
            yield message(REQUEST, own, ciaddr=address_of(own), giaddr=bytes(4))
        elif kind == "INFORM":
            yield message(INFORM, own, ciaddr=address_of(own))
        elif kind == "RELEASE":
            yield message(RELEASE, own, bytes([54, 4]) + SERVER, address_of(own))
        else:
            yield message(REQUEST, own, bytes([50, 4]) + bytes([192, 0, 2, 1]))


def lines(kind):
    """The leases, then the messages of a kind if there is one, two seconds apart."""
    every = [leased(client) for client in range(LEASES)] + (list(messages(kind)) if kind else [])
    return "".join(f"{1000 + 2 * at} {line}\n" for at, line in enumerate(every))


def counted(program, folder, kind):
    """The instructions of a run, and what it printed."""
    text = lines(kind)
    done = subprocess.run([*VALGRIND, program, "replay", "--config", f"{folder}/config.json"], input=text, capture_output=True, text=True, check=True)
    return int(re.search(r"refs:\s+([\d,]+)", done.stderr).group(1).replace(",", "")), done.stdout


def main(words):
    if any(it.startswith("-") for it in words):
        print(__doc__)
        return 0 if words in (["-h"], ["--help"]) else 2
    programs = [os.path.abspath(it) for it in words or [f"{TOP}/crates/kdhcp/out/kdhcp"]]
    print("| Message |" + "".join(f" {number} |" + " ratio |" * (number > 1) for number in range(1, len(programs) + 1)))
    print("|---|" + "---|" * (2 * len(programs) - 1), flush=True)
    with tempfile.TemporaryDirectory() as folder:
        with open(f"{folder}/config.json", "w", encoding="utf-8") as file:
            json.dump(configuration(), file)
        bare = [counted(it, folder, "")[0] for it in programs]
        for kind in ("DISCOVER, new client", "DISCOVER, own lease", "DORA", "renewal", "INFORM", "RELEASE", "NAK"):
            runs = [counted(it, folder, kind) for it in programs]
            if len({said for _, said in runs}) > 1:
                raise SystemExit(f"rules.py: the programs print different lines for {kind}")
            each = [(count - without) / COUNTED for (count, _), without in zip(runs, bare)]
            print(f"| {kind} | {each[0]:,.0f} |" + "".join(f" {it:,.0f} | {it / each[0]:.3f} |" for it in each[1:]), flush=True)
    return 0


if __name__ == "__main__":
    sys.exit(main(sys.argv[1:]))
