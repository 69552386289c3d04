#!/usr/bin/env python3
"""Runs a soak on loopback, in a network namespace; called by serve.sh: soak.py ROOM KDHCP SECONDS [--store].

250,000 clients get a lease each, and the greatest rate of renewals is measured. Then for SECONDS they renew through their
relay at half of that rate, while every fifth datagram is garbage. It prints the results and the server's memory."""
import json
import os
import random
import re
import socket
import statistics
import subprocess
import sys
import threading
import time

import serve

CLIENTS, PROBED = 250_000, 50_000
COOKIE = bytes([99, 130, 83, 99])


def garbage(chance):
    """A malformed datagram: noise, a truncated header, a wrong cookie, malformed options, or an unknown message type."""
    head = bytes([1, 1, 6, 0]) + chance.randbytes(232)
    return chance.choice(
        [
            chance.randbytes(chance.randrange(1500)),
            head[: chance.randrange(236)],
            head + chance.randbytes(4) + bytes([53, 1, 1, 255]),
            head + COOKIE + bytes([61, 200]) + chance.randbytes(chance.randrange(100)),
            head + COOKIE + bytes([53, 1, chance.randrange(9, 256), 255]),
        ]
    )


class Garbage(threading.Thread):
    """Sends garbage to the server at `rate` datagrams a second, until `is_over` is set."""

    def __init__(self, rate):
        super().__init__(daemon=True)
        self.rate, self.sent, self.is_over = rate, 0, False

    def run(self):
        chance = random.Random(1)
        kinds = [garbage(chance) for _ in range(10_000)]
        with socket.socket(socket.AF_INET, socket.SOCK_DGRAM) as out:
            begun = time.monotonic()
            while not self.is_over:
                while self.sent < self.rate * (time.monotonic() - begun):
                    out.sendto(kinds[self.sent % len(kinds)], (serve.SERVER, 67))
                    self.sent += 1
                time.sleep(0.002)


class Watch(threading.Thread):
    """Records the server's memory every second."""

    def __init__(self, pid):
        super().__init__(daemon=True)
        self.pid, self.seen, self.is_over = pid, [], False

    def run(self):
        while not self.is_over:
            with open(f"/proc/{self.pid}/status", encoding="utf-8") as it:
                self.seen.append(int(re.search(r"VmRSS:\s+(\d+)", it.read())[1]))
            time.sleep(1)


def drops():
    """How many datagrams the kernel dropped because a buffer was full, at all sockets of this namespace."""
    with open("/proc/net/snmp", encoding="utf-8") as it:
        names, numbers = [line.split() for line in it if line.startswith("Udp:")]
    return int(numbers[names.index("RcvbufErrors")])


def renewed(room, server, clients, rate):
    """The results of kdload for this many renewals, at a rate, or as fast as possible if the rate is 0."""
    words = [f"{room}/kdload", "--netns", "--server", serve.SERVER, "--giaddr", serve.RELAY, "--pool", serve.POOL]
    words += ["--mode", "rebind", "--load", f"{room}/leases", "--clients", str(clients), "--pid", str(server.pid)]
    words += ["--max-seconds", "600", "--window", "4096" if rate else "32"] + (["--rate", str(rate)] if rate else [])
    it = subprocess.run(["taskset", "-c", "1", *words], capture_output=True, text=True, check=False)
    if it.returncode not in (0, 3):
        sys.exit(f"kdload: {it.returncode} {it.stdout} {it.stderr}")
    return json.loads(it.stdout)


def main(room, kdhcp, seconds, *words):
    serve.laid_out()
    server = serve.started(room, kdhcp, "file" if words else "memory", 0)
    serve.loaded(room, server, 0, CLIENTS, "", "--save", f"{room}/leases")
    greatest = renewed(room, server, PROBED, 0)["per_s"]
    rate = greatest / 2
    dropped = drops()
    noise, watch, rounds = Garbage(rate / 5), Watch(server.pid), []
    noise.start()
    watch.start()
    end = time.monotonic() + float(seconds)
    while time.monotonic() < end:
        rounds.append(renewed(room, server, CLIENTS, rate * 4 / 5))
    noise.is_over = watch.is_over = True
    dropped = drops() - dropped
    if server.poll() is not None:
        sys.exit("the server ended")
    server.terminate()
    server.wait()
    total = lambda name: sum(it[name] for it in rounds)
    first, last = watch.seen[: len(watch.seen) // 10], watch.seen[-(len(watch.seen) // 10) :]
    print(f"greatest rate: {greatest:,.0f} renewals a second; half of it: {rate:,.0f} datagrams a second")
    print(f"{len(rounds)} rounds of {CLIENTS:,} renewals in {len(watch.seen)} s, {noise.sent:,} datagrams of garbage")
    print(f"acknowledged {total('done'):,}, refused {total('naks')}, given up by the client {total('failed')}")
    print(f"sent again after a second without a reply {total('retransmits')}, dropped by the kernel {dropped}")
    print(f"an address to two clients {total('address_to_two')}, of another address {total('ack_not_offer')}")
    print(f"memory: {statistics.median(first):,.0f} kB in the first tenth, {statistics.median(last):,.0f} kB in the last")
    print(f"processor: {statistics.median(it['server']['cpu_us_per_done'] for it in rounds):.1f} us a renewal and its share of garbage")
    print(f"slowest of a thousand replies: {statistics.median(it['whole_us']['p999'] for it in rounds):,.0f} us")


if __name__ == "__main__":
    main(*sys.argv[1:])
