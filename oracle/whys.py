#!/usr/bin/env python3
"""Explains each event of random histories: whys.py SEED COUNT [--networks] [--program P] [--jobs N]

The histories are those of histories.py, or with --networks those of networks.py. For each event, the explanation of
`kdhcp replay --why` must end with the line of judge.py, and say why subnets are passed over, whether this server is named,
whether the address fits and whether the client stays, as the judge's rules do. For the last event, `kdhcp why` with a store
after the events before it must print the same explanation, and leave the store's leases unchanged.
"""
import argparse
import json
import multiprocessing
import os
import random
import subprocess
import sys
import tempfile
from ipaddress import IPv4Address

import histories
import judge
import networks
from histories import ROOT


def printed(name):
    """The name of a class as the explanation has it."""
    return "".join(chr(it) if 0x20 < it < 0x7F and it != 0x5C else f"\\x{it:02x}" for it in name.encode())


def run(program, words, text=""):
    done = subprocess.run([program, *words], input=text.encode(), capture_output=True, check=False)
    return (done.stdout + done.stderr).decode().splitlines()


def passed_over(asked):
    """Why each subnet is passed over, up to the one that serves: by its place, or by the first class that the client lacks. The
    class counts too if the subnet names the relay, and no subnet that does so admits the client."""
    root, relay = asked.root, judge.dotted(asked.datagram[24:28])
    place = judge.place_of_message(root, asked.datagram, asked.found)
    link = judge.selected_link(root, asked.datagram, asked.found)
    pairs = judge.subnets_of(root)
    naming = [pair for pair in pairs if judge.giaddr(asked) and link is None and relay in judge.relays_of(*pair)]
    is_named = any(judge.has_classes(judge.classes_of(*pair), asked.held) for pair in naming)
    for subnet, network in pairs:
        lacking = [name for name in judge.classes_of(subnet, network) if name.encode() not in asked.held]
        if (subnet, network) not in naming and is_named:
            yield f"{relay} is no relay of it"
        elif (subnet, network) not in naming and not judge.contains(subnet, place):
            yield f"{histories.dotted_number(place)} is outside"
        elif lacking:
            yield f"the client is not in class {printed(lacking[0])}"
        else:
            return


def reserved_words(asked, wanted):
    """Whom an address is reserved for."""
    entry = judge.lasting(asked, wanted)
    if wanted == judge.reserved(asked):
        return "reserved for the client"
    if entry is not None:
        return "reserved for a circuit" if "circuit-id" in entry else "reserved for the client in its classes"
    return "reserved otherwise" if wanted in judge.all_reserved(asked.root) else "not reserved"


def wanted_by(asked):
    """The address that a REQUEST is about."""
    return judge.requested(asked) if 54 in asked.found else judge.ciaddr(asked) or judge.requested(asked)


def stays_lines(asked, lines):
    """The lines that say whether the client of a REQUEST stays where it is: one if another address is reserved for it, and all
    other checks are passed."""
    is_asked = asked.found[53][0] == judge.REQUEST and any(line.startswith(("ends ACK", "check stays: ")) for line in lines)
    there = judge.awaited(asked, wanted_by(asked)) if is_asked else None
    if there is None:
        return []
    word, use = ("no", "unused") if judge.is_to_move(asked, wanted_by(asked)) else ("yes", "in use")
    return [f"check stays: {word}, {IPv4Address(there)} is reserved for the client and {use}"]


def fits_line(asked):
    """The line that says whether the address of a REQUEST fits."""
    is_chosen, wanted = 54 in asked.found, wanted_by(asked)
    all_pools = [judge.pool(entry["pool"]) for entry in asked.subnet.get("pools", [])]
    is_in, is_given = (any(first <= wanted <= last for first, last in them) for them in (all_pools, judge.pools(asked)))
    is_fit = judge.fits(asked, wanted) if is_chosen else judge.lasts(asked, wanted)
    where = "in a pool" if is_given else "in a pool of another class" if is_in else "in no pool"
    end = ", the client keeps its lease" if asked.keeps and not is_chosen else ""
    return f"check fits: {'yes' if is_fit else 'no'}, {where}, {reserved_words(asked, wanted)}{end}"


def server_line(asked):
    """The line that says whether a message names this server."""
    if 54 not in asked.found:
        return "check server: none is named"
    return f"check server: {judge.dotted(asked.found[54])} is {'another' if judge.names_another_server(asked) else 'this'} one"


def is_explained(root, rows, event, lines):
    """Whether the lines about passed over subnets, the server and the address are those of the rules."""
    asked = judge.asked_of(root, rows, *event)
    if not isinstance(asked, judge.Asked):
        return True
    over = [line.split(" passed over: ")[1] for line in lines if " passed over: " in line]
    fits = [line for line in lines if line.startswith("check fits: ")]
    servers = [line for line in lines if line.startswith("check server: ")]
    is_so = all(line == fits_line(asked) for line in fits) and all(line == server_line(asked) for line in servers)
    is_so = is_so and [line for line in lines if line.startswith("check stays: ")] == stays_lines(asked, lines)
    return over == ([] if asked.keeps else [*passed_over(asked)]) and is_so


def explained(program, files, events, number):
    text = "".join(f"{event}\n" for event in events)
    return run(program, ["replay", *files, "--why", str(number)], text)


def over_store(program, folder, files, events):
    """The explanation of the last event with the store after those before it, and whether --live agrees and no lease changed."""
    files = [*files, "--store", os.path.join(folder, "leases.db")]
    text = "".join(f"{event}\n" for event in events[:-1])
    run(program, ["replay", *files], text)
    moment, datagram = events[-1].split(" ")
    leases = ["leases", *files, "--at", moment]
    before = run(program, leases)
    lines = run(program, ["why", *files, "--at", moment, datagram])
    live = run(program, ["why", *files, "--live", "--at", moment, datagram])
    return lines, lines == live and before == run(program, leases)


def differs(program, seed, of_networks):
    """The first error of a history, or None; and the number of its events."""
    source = networks if of_networks else histories
    root, events, (lines, _, fault) = source.history(random.Random(seed))
    wanted, rows = lines + ([fault] if fault else []), judge.Rows()
    with tempfile.TemporaryDirectory() as folder:
        files = (networks.kea_words if of_networks else histories.words_of)(root, os.path.join(folder, "config.json"))
        for number, line in enumerate(wanted, 1):
            came, event = explained(program, files, events, number), judge.event_of(events[number - 1])
            if came[-1:] != [line] or line != fault and not is_explained(root, rows, event, came):
                return (seed, number, json.dumps(root), events[number - 1], came, line), 0
            rows = rows if line == fault else judge.handle(root, rows, *event)[1]
        if not fault:
            came, kept = over_store(program, folder, files, events)
            if came[-1:] != wanted[-1:] or not kept or came != explained(program, files, events, len(events)):
                return (seed, "store", came, wanted[-1]), 0
    return None, len(wanted)


def judged(words):
    return differs(*words)


def main():
    words = argparse.ArgumentParser()
    words.add_argument("seed", type=int)
    words.add_argument("count", type=int)
    words.add_argument("--program", default=os.path.join(ROOT, "crates", "kdhcp", "out", "kdhcp"))
    words.add_argument("--networks", action="store_true")
    words.add_argument("--jobs", type=int, default=os.cpu_count())
    words = words.parse_args()
    seeds = [(words.program, words.seed * 1_000_000 + number, words.networks) for number in range(words.count)]
    events = 0
    with multiprocessing.Pool(words.jobs) as pool:
        for wrong, count in pool.imap_unordered(judged, seeds, 8):
            if wrong:
                print(*wrong, sep="\n")
                sys.exit(1)
            events += count
    print(f"{words.count} histories, {events} events explained: no difference")


if __name__ == "__main__":
    main()
