#!/usr/bin/env python3
"""Tests a day of many clients with `kdhcp replay`, compared line by line with the judge.

    long_day.py SEED [EVENTS] [CLIENTS] [--program P]     by default 100,000 events of 20,000 clients

There are four subnets, each behind a relay, two of them with pools too small for their clients. A client requests an
address, accepts the one that the judge offers, renews, releases and declines. Some events are garbage, and some times go
back. The table at the end is also compared, through a store. The judge's table has an index (indexed.py).
"""
import argparse
import json
import os
import random
import subprocess
import sys
import tempfile
from collections import Counter

import judge
from day import address, written  # noqa: E402
from histories import ROOT, dotted_number, first_difference
from indexed import Indexed

INFORM = 8
DAY = 86400
SERVER = "10.0.0.1"
# How many addresses the pools of each subnet have for each hundred clients of that subnet.
ROOM = [130, 110, 60, 15]


def option(code, data):
    return [{"code": code, "data": data, "csv-format": False}]


def subnet(chance, number, size):
    """The subnet 10.NUMBER.0.0/16 with `size` addresses in two pools. Some of them are reserved."""
    start = judge.number(address(f"10.{number}.1.0"))
    middle, last = start + size // 3, start + size + 4
    kept = enumerate(chance.sample(range(start, last), min(20, size)))
    return {
        "subnet": f"10.{number}.0.0/16",
        "pools": [
            {"pool": f"{dotted_number(start)} - {dotted_number(middle)}"},
            {"pool": f"{dotted_number(middle + 5)} - {dotted_number(last)}"},
        ],
        "reservations": [
            {"hw-address": hardware(number - 1 + at * len(ROOM)).hex(), "ip-address": dotted_number(each)}
            for at, each in kept
        ],
        "option-data": option(3, f"0a{number:02x}0001"),
    }


def configuration(chance, clients):
    root = {"server-address": SERVER, "valid-lifetime": 14400, "offer-hold": 120, "decline-hold": 1800}
    root["option-data"] = option(6, "0a000035")
    root["client-classes"] = [{"name": "phones", "test": "option[60].hex == 'phone'", "option-data": option(66, "7078")}]
    sizes = [max(2, clients // len(ROOM) * room // 100) for room in ROOM]
    root["subnet4"] = [subnet(chance, number, size) for number, size in enumerate(sizes, 1)]
    return root


def hardware(number):
    return b"\x0a\x00" + number.to_bytes(4, "big")


class Client:
    """A client: its identity, its relay, and its offered or leased address."""

    def __init__(self, chance, number):
        self.hardware = hardware(number)
        self.relay = address(f"10.{number % len(ROOM) + 1}.0.1")
        self.about = [(61, b"\x01" + self.hardware)] if chance.random() < 0.3 else []
        self.about += [(60, b"phone")] if chance.random() < 0.2 else []
        self.offered = self.bound = None

    def message(self, chance, kind, pairs=(), ciaddr=bytes(4)):
        """A datagram of this type through the relay."""
        header = bytes([1, 1, 6, 1]) + chance.randbytes(4) + bytes(4) + ciaddr + bytes(8) + self.relay
        options = b"".join(written(*pair) for pair in [(53, bytes([kind])), *pairs, *self.about])
        return header + self.hardware.ljust(16, b"\0") + bytes(192) + judge.COOKIE + options + b"\xff"

    def says(self, chance):
        """The next datagram of the client."""
        here = [(54, address(SERVER))]
        place = chance.random()
        if self.offered is not None:
            if place < 0.85:
                return self.message(chance, judge.REQUEST, [(50, self.offered), *here])
            if place < 0.9:
                return self.message(chance, judge.REQUEST, [(50, self.offered), (54, address("10.0.0.2"))])
            if place < 0.95:
                return self.message(chance, judge.DECLINE, [(50, self.offered), *here])
        if self.bound is None:
            return self.message(chance, judge.DISCOVER, [(50, self.relay[:3] + bytes([9]))] if place < 0.1 else [])
        if place < 0.55:
            return self.message(chance, judge.REQUEST, [], self.bound)
        if place < 0.65:
            return self.message(chance, judge.REQUEST, [(50, self.bound)])
        if place < 0.8:
            return self.message(chance, judge.RELEASE, here, self.bound)
        if place < 0.83:
            return self.message(chance, judge.DECLINE, [(50, self.bound), *here])
        if place < 0.9:
            return self.message(chance, INFORM, [], self.bound)
        return self.message(chance, judge.DISCOVER)

    def is_offered(self, words):
        """Records the judge's reply to the client. Returns whether it is an OFFER."""
        if words[0] == "reply":
            datagram = bytes.fromhex(words[-1])
            kind, yiaddr = datagram[242], datagram[16:20]
            if kind == 2:
                self.offered = yiaddr
                return True
            if kind == 6 or yiaddr != bytes(4):
                self.offered, self.bound = None, yiaddr if kind == 5 else None
        elif words[-1] in ("OtherServer", "Declined", "Released", "NotHeld"):
            self.offered = self.bound = None
        return False


def garbled(chance, datagram):
    """An empty datagram, part of one, one with a changed byte, or random bytes."""
    at = chance.randrange(len(datagram))
    changed = datagram[:at] + chance.randbytes(1) + datagram[at + 1 :]
    return chance.choice([b"", datagram[:at], changed, chance.randbytes(chance.randrange(600))])


def day(chance, events, clients):
    """The configuration, the events of the day, the expected lines, and the table at the end."""
    root = configuration(chance, clients)
    everyone, asking = [Client(chance, number) for number in range(clients)], []
    table, lines, wanted = Indexed(root), [], []
    for number in range(events):
        client = asking.pop(0) if asking and chance.random() < 0.5 else chance.choice(everyone)
        datagram = client.says(chance)
        if chance.random() < 0.01:
            datagram = garbled(chance, datagram)
        moment = number * DAY // events
        if chance.random() < 0.02:
            moment = chance.randrange(moment + 1)
        line, table = judge.handle(root, table, moment, datagram)
        if client.is_offered(line.split()[1:]):
            asking.append(client)
        lines.append(f"{moment} {datagram.hex()}")
        wanted.append(line)
    return root, lines, wanted, table


def counted(wanted):
    """The number of lines of each kind: the type of the reply, or the reason for none."""
    kinds = {2: "OFFER", 5: "ACK", 6: "NAK"}
    words = [line.split() for line in wanted]
    return Counter(kinds[int(each[-1][484:486], 16)] if each[1] == "reply" else each[-1] for each in words)


def printed(words, said):
    """The lines that a command prints for an input."""
    done = subprocess.run(words, input=said, capture_output=True, text=True, check=False)
    return (done.stdout + done.stderr).splitlines()


def main():
    words = argparse.ArgumentParser()
    words.add_argument("seed", type=int)
    words.add_argument("events", type=int, nargs="?", default=100_000)
    words.add_argument("clients", type=int, nargs="?", default=20_000)
    words.add_argument("--program", default=os.path.join(ROOT, "crates", "kdhcp", "out", "kdhcp"))
    words = words.parse_args()
    root, lines, wanted, table = day(random.Random(words.seed), words.events, words.clients)
    wanted += judge.lease_lines(table, DAY)
    with tempfile.TemporaryDirectory() as folder:
        with open(os.path.join(folder, "config.json"), "w", encoding="utf-8") as file:
            json.dump({"Dhcp4": root}, file)
        files = ["--config", os.path.join(folder, "config.json"), "--store", os.path.join(folder, "leases.db")]
        out = printed([words.program, "replay", *files], "".join(f"{line}\n" for line in lines))
        out += printed([words.program, "leases", *files, "--at", str(DAY)], "")
    at = first_difference(out, wanted)
    if at is not None:
        print(f"line {at + 1}\nprogram {out[at:at + 1]}\njudge   {wanted[at:at + 1]}")
        sys.exit(1)
    print(f"{words.events} events: {dict(counted(wanted[: words.events]).most_common())}")
    print(f"{len(wanted) - words.events} leases: no difference")


if __name__ == "__main__":
    main()
