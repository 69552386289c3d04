#!/usr/bin/env python3
"""Replays a day of leases: bench/leases.py [PROGRAM [EVENTS [CLIENTS [STORE]]]].

The defaults are ./kdhcp, 1,000,000 events, 10,000 clients and leases in memory only. Each client sends a DISCOVER through a
relay, then a REQUEST, and then renews. It prints how many lines of each kind the program printed, its resident memory at
nine points of the run, and its processor time. With `-` in place of PROGRAM it only prints the events."""
import json
import os
import resource
import subprocess
import sys
import tempfile
import threading

TOP = os.path.dirname(os.path.dirname(os.path.realpath(__file__)))
WORDS = sys.argv[1:]
PROGRAM = WORDS[0] if WORDS else f"{TOP}/kdhcp"
EVENTS = int(WORDS[1]) if len(WORDS) > 1 else 1_000_000
CLIENTS = int(WORDS[2]) if len(WORDS) > 2 else 10_000
STORE = WORDS[3:4]
SERVER, FIRST = 0xC0000201, 0x0A00000A
CONFIG = {
    "Dhcp4": {
        "server-address": "192.0.2.1",
        "valid-lifetime": 3600,
        "subnet4": [{"subnet": "10.0.0.0/16", "pools": [{"pool": "10.0.0.10 - 10.0.255.250"}]}],
    }
}


def datagram(client, options, ciaddr=0):
    """A message of the client with this number, through the relay 10.0.0.1."""
    head = f"010106000000000100000000{ciaddr:08x}{'0' * 16}0a000001{client:012x}{'0' * 20}"
    return f"{head}{'00' * 192}63825363{options}ff"


def event(number):
    """The line of the event with this number. In each round every client sends one message."""
    turn, client = divmod(number, CLIENTS)
    address = FIRST + client
    if turn == 0:
        message = datagram(client + 1, "350101")
    elif turn == 1:
        message = datagram(client + 1, f"3501033604{SERVER:08x}3204{address:08x}")
    else:
        message = datagram(client + 1, "350103", address)
    return f"{100 + turn * 10} {message}\n"


def resident(process):
    with open(f"/proc/{process.pid}/status") as status:
        return next(line.split()[1] for line in status if line.startswith("VmRSS"))


def count(process, kinds, memory):
    """Counts the lines by kind, and records the resident memory nine times on the way."""
    for number, line in enumerate(process.stdout, 1):
        words = line.split()
        kind = " ".join(words[1:3]) if words[1] == "quiet" else words[1]
        kinds[kind] = kinds.get(kind, 0) + 1
        if number % (EVENTS // 10) == 0 and number < EVENTS:
            memory.append((number, resident(process)))


def main():
    if PROGRAM == "-":
        sys.stdout.writelines(event(number) for number in range(EVENTS))
        return
    with tempfile.NamedTemporaryFile("w", suffix=".json") as config:
        json.dump(CONFIG, config)
        config.flush()
        words = [PROGRAM, "replay", "--config", config.name] + (["--store"] + STORE if STORE else [])
        process = subprocess.Popen(words, stdin=subprocess.PIPE, stdout=subprocess.PIPE, text=True)
        kinds, memory = {}, []
        counter = threading.Thread(target=count, args=(process, kinds, memory))
        counter.start()
        for start in range(0, EVENTS, 1000):
            process.stdin.write("".join(event(number) for number in range(start, min(start + 1000, EVENTS))))
        process.stdin.close()
        counter.join()
        process.wait()
    used = resource.getrusage(resource.RUSAGE_CHILDREN)
    print(f"status {process.returncode}, lines {kinds}, {used.ru_utime + used.ru_stime:.1f} s of processor time")
    print(f"lines printed and resident KB: {memory}, greatest {used.ru_maxrss}")


main()
