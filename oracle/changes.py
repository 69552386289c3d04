#!/usr/bin/env python3
"""Tests random histories of one store with two to five configurations, with a restart at each change.

    changes.py SEED COUNT [--program P]

P is the program, by default `crates/kdhcp/out/kdhcp`. The configurations of a history differ in what operators change:
pools, reservations, the lifetime, holds, the server's address, classes, options, and subnets that are removed and come
back. Each part is one run of `kdhcp replay` with the store. Its lines must be those of judge.py, and so must the table at
the end, as `kdhcp leases` prints it.

The promise is also checked in the program's own lines: until the end of an acknowledged lease, its address is neither
offered nor acknowledged to another client, unless the client released or declined it, or requested it again under a shorter
lifetime that has ended.
"""
import argparse
import copy
import json
import os
import random
import subprocess
import sys
import tempfile

import histories
import judge

# The types of replies that assign an address.
OFFER, ACK = 2, 5


def with_changes(chance, root):
    """A copy of a configuration with some of the changes that an operator may make."""
    other = histories.configuration(chance)
    root = copy.deepcopy(root)
    for key in ("valid-lifetime", "offer-hold", "decline-hold", "server-address", "option-data", "client-classes"):
        if chance.random() < (0.7 if key == "valid-lifetime" else 0.15):
            root.pop(key, None)
            root.update({key: other[key]} if key in other else {})
    root.pop("renew-timer", None)
    root.pop("rebind-timer", None)
    kept = {place["ip-address"] for subnet in root["subnet4"] for place in subnet["reservations"]}
    for subnet in root["subnet4"]:
        if chance.random() < 0.3:
            subnet["pools"] = histories.subnet_pools(chance, subnet["subnet"], set())[:1]
        if chance.random() < 0.3:
            kept -= {place["ip-address"] for place in subnet["reservations"]}
            taken = {judge.number(judge.address(each)) for each in kept}
            subnet["reservations"] = histories.subnet_reservations(chance, subnet["subnet"], taken)
            kept |= {place["ip-address"] for place in subnet["reservations"]}
    if len(root["subnet4"]) > 1 and chance.random() < 0.2:
        root["subnet4"].pop(chance.randrange(len(root["subnet4"])))
    return root


def is_valid(program, folder, root):
    """Whether the program accepts the configuration. After the changes, pools may overlap."""
    return run(program, folder, root, ["replay"], "")[1] == ""


def run(program, folder, root, words, text):
    path = os.path.join(folder, "config.json")
    with open(path, "w", encoding="utf-8") as file:
        json.dump({"Dhcp4": root}, file)
    words = [program, *words, "--config", path]
    done = subprocess.run(words, input=text.encode(), capture_output=True, check=False)
    return done.stdout.decode(), done.stderr.decode()


def history(chance, program, folder):
    """The parts of a history, each with its configuration, events and lines of judge.py; and the rows at the end."""
    first = histories.configuration(chance)
    roots = [first]
    for _ in range(chance.choice([1, 2, 3, 4])):
        changed = with_changes(chance, chance.choice([first, roots[-1]]))
        roots.append(changed if is_valid(program, folder, changed) else first)
    clients = [histories.Client(chance) for _ in range(chance.choice([2, 3, 4]))]
    rows, now, parts = judge.Rows(), chance.choice([0, 100, 1000]), []
    for root in roots:
        events, lines = [], []
        for _ in range(chance.randrange(1, 25)):
            moment = min(histories.some_moment(chance, rows, now), judge.END_OF_TIME - 1)
            message = histories.datagram(chance, root, rows, clients)
            line, rows = judge.handle(root, rows, moment, message)
            events.append(f"{moment} {message.hex()}")
            lines.append(line)
            now = judge.moment_of(rows, now if chance.random() < 0.5 else moment)
        parts.append((root, events, lines))
    return parts, rows


class Promise:
    """An acknowledged lease: until `end`, no other client may have the address."""

    def __init__(self, client, address, lifetime, end):
        self.client, self.address, self.lifetime, self.end = client, address, lifetime, end


class Promises:
    """The promises of a history, checked in the lines that the program printed."""

    def __init__(self):
        self.made, self.leases, self.shortened, self.given_up = [], 0, 0, 0

    def broken_by(self, root, event, line, before, after):
        """Returns the promise that a line breaks, if any. Otherwise updates the promises for the event and returns None."""
        _, message = judge.event_of(event)
        found = judge.readable(message)
        if found is None:
            return None
        client, kind = judge.identity(root, message, found), found[53][0]
        now, words = int(line.split(" ")[0]), line.split(" ")
        reply = bytes.fromhex(words[4]) if words[1] == "reply" else b""
        # The message type is the first option of a reply.
        gives = reply[242] in (OFFER, ACK) and kind in (judge.DISCOVER, judge.REQUEST) if reply else False
        place = judge.number(reply[16:20]) if gives else None
        for promise in self.made:
            if promise.address == place and promise.client != client and now < promise.end:
                return promise
        self.change(root, client, kind, now, before, after)
        if gives and kind == judge.REQUEST:
            self.leases += 1
            lifetime = root.get("valid-lifetime", 7200)
            self.made.append(Promise(client, place, lifetime, now + lifetime))
        return None

    def change(self, root, client, kind, now, before, after):
        lifetime = root.get("valid-lifetime", 7200)
        for promise in [each for each in self.made if each.client == client]:
            row = after.at(promise.address)
            if kind in (judge.RELEASE, judge.DECLINE) and row != before.at(promise.address):
                self.made.remove(promise)
                self.given_up += 1
            if kind == judge.REQUEST and row == judge.Row(promise.address, client, "Bound", now, now + lifetime):
                if lifetime < promise.lifetime and now + lifetime < promise.end:
                    promise.end = now + lifetime
                    self.shortened += 1


def looked_at(program, folder, parts, rows, promises):
    """The first error of a history, or None."""
    store = os.path.join(folder, "leases.db")
    for suffix in ("", "-wal"):
        if os.path.exists(store + suffix):
            os.remove(store + suffix)
    table = judge.Rows()
    for number, (root, events, lines) in enumerate(parts):
        out, fault = run(program, folder, root, ["replay", "--store", store], "".join(f"{each}\n" for each in events))
        came = out.splitlines()
        if came != lines or fault:
            at = histories.first_difference(came, lines)
            return f"part {number}, line {at}\nprogram {came[at : at + 1]} {fault}\njudge   {lines[at : at + 1]}"
        for event, line in zip(events, came):
            _, after = judge.handle(root, table, *judge.event_of(event))
            broken = promises.broken_by(root, event, line, table, after)
            if broken:
                return f"part {number}: {line[:60]} breaks the promise to {broken.client.hex()} up to {broken.end}"
            table = after
    moment = min(judge.event_of(parts[-1][1][-1])[0], judge.END_OF_TIME - 1)
    out, fault = run(program, folder, parts[-1][0], ["leases", "--store", store, "--at", str(moment)], "")
    return None if out.splitlines() == judge.lease_lines(rows, moment) else f"table\n{out}{fault}"


def main():
    words = argparse.ArgumentParser()
    words.add_argument("seed", type=int)
    words.add_argument("count", type=int)
    words.add_argument("--program", default=os.path.join(histories.ROOT, "crates", "kdhcp", "out", "kdhcp"))
    words = words.parse_args()
    events, parts_run, leases, shortened, given_up = 0, 0, 0, 0, 0
    with tempfile.TemporaryDirectory() as folder:
        for number in range(words.count):
            chance = random.Random(words.seed * 1_000_000 + number)
            parts, rows = history(chance, words.program, folder)
            promises = Promises()
            wrong = looked_at(words.program, folder, parts, rows, promises)
            if wrong:
                print(f"history {number}", wrong, sep="\n")
                for root, lines, _ in parts:
                    print(json.dumps({"Dhcp4": root}), *lines, sep="\n")
                sys.exit(1)
            events += sum(len(part[1]) for part in parts)
            parts_run += len(parts)
            leases += promises.leases
            shortened += promises.shortened
            given_up += promises.given_up
    print(f"{words.count} histories, {parts_run} configurations, {events} events: no difference")
    print(f"{leases} leases were acknowledged, {given_up} released or declined, {shortened} shortened by their client: no promise was broken")


if __name__ == "__main__":
    main()
