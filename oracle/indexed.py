#!/usr/bin/env python3
"""The judge's table with an index, for days with many rows.

    indexed.py SEED COUNT [crowds]     compares it with the plain list of judge.py, on the random histories of
                                       histories.py or of crowds.py

Dicts find a row by its address and by its client. The unreserved addresses of a subnet's pools are computed once. The
client's own reserved address need not be among them: a DISCOVER gets it before the pools are searched, or another client
has it.
"""
import importlib
import random
import sys

import judge


class Indexed:
    """The table. It is changed in place."""

    def __init__(self, root):
        taken = set(judge.all_reserved(root))
        self.pools, self.by_address, self.by_client, self.greatest = {}, {}, {}, 0
        for subnet in root.get("subnet4", []):
            ranges = [judge.pool(entry["pool"]) for entry in subnet.get("pools", [])]
            every = [each for first, last in ranges for each in range(first, last + 1)]
            self.pools[id(subnet)] = [each for each in every if each not in taken]

    def __iter__(self):
        return iter(self.by_address.values())

    def at(self, wanted):
        return self.by_address.get(wanted)

    def of(self, client):
        return list(self.by_client.get(client, {}).values())

    def latest(self):
        return self.greatest

    def with_row(self, new):
        old = self.at(new.address)
        if old is not None:
            del self.by_client[old.client][old.address]
        self.by_address[new.address] = new
        self.by_client.setdefault(new.client, {})[new.address] = new
        self.greatest = max(self.greatest, new.changed)
        return self

    def in_order(self, asked):
        return self.pools[id(asked.subnet)]


def main():
    seed, count = int(sys.argv[1]), int(sys.argv[2])
    made = importlib.import_module(sys.argv[3] if len(sys.argv) > 3 else "histories")
    handled = 0
    for number in range(count):
        root, events, _judged = made.history(random.Random(seed * 1_000_000 + number))
        wanted, rows, _fault = judge.replay(root, events)
        table, lines = Indexed(root), []
        for event in map(judge.event_of, events[: len(wanted)]):
            line, table = judge.handle(root, table, *event)
            lines.append(line)
        if lines != wanted or sorted(table) != sorted(rows):
            sys.exit(f"history {number} of {seed}: the index gives a different result")
        handled += len(lines)
    print(f"{count} histories, {handled} events: no difference")


if __name__ == "__main__":
    main()
