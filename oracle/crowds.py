#!/usr/bin/env python3
"""Tests random histories of hostile clients with `kdhcp replay`, compared line by line with the judge.

    crowds.py SEED COUNT [--program P] [--leases]

There are one to four subnets, with pools of up to 400 addresses and up to 120 reservations each: for the first addresses of
the pools, for others in them, for addresses outside, and two for one client. A few clients take dozens or hundreds of
addresses with REQUESTs to this server, in rising, falling or mixed order and in every subnet. They renew and release them,
let them end, turn to another server, and send DISCOVERs in between, as do clients without a lease and clients with a
reservation. The judge's table has an index (indexed.py). The comparison and its options are those of histories.py.
"""
import histories
import judge
from day import COOKIE, address, written  # noqa: E402
from histories import dotted_number
from indexed import Indexed

# Prefixes, each with the first address of its pools. The last one contains all others.
PREFIXES = {
    "10.1.0.0/16": "10.1.1.0",
    "10.2.0.0/16": "10.2.0.0",
    "10.3.0.0/20": "10.3.8.250",
    "10.0.0.0/8": "10.9.0.250",
}
# The greatest size of a subnet's pools, and its greatest number of reservations: one of the two is large.
SIZES = [(400, 4), (250, 12), (250, 12), (200, 40), (60, 60), (24, 120)]
OTHER_SERVER = address("192.0.2.99")
ANOTHER = 5000


def hardware(number):
    return b"\x0a\x00" + number.to_bytes(4, "big")


# ---- configurations


def subnet_pools(chance, text, size):
    """Up to three pools of at most `size` addresses of the prefix each, adjacent or with gaps between them."""
    made, start = [], judge.number(address(PREFIXES[text]))
    for _ in range(chance.choice([1, 1, 2, 3])):
        end = start + max(1, size // chance.choice([1, 2, 3])) - 1
        made.append((start, end))
        start = end + chance.choice([1, 1, 3])
    return made


def reserved_addresses(chance, pools, count):
    """Up to `count` addresses: the first ones of the pools, any in them, those after them, or a mixture."""
    inside = [each for first, last in pools for each in range(first, last + 1)]
    behind = list(range(pools[-1][1] + 1, pools[-1][1] + 1 + count))
    some = chance.choice([inside[:count], inside, behind, inside + behind])
    return chance.sample(some, min(count, len(some)))


def reservations(chance, pools, count, taken):
    """Up to `count` reservations, for clients with numbers from 0 to 5, some of which have two, and for many others."""
    made, keys = [], set()
    for wanted in reserved_addresses(chance, pools, count):
        number = chance.choice([chance.randrange(6), ANOTHER + len(made), ANOTHER + len(made)])
        key = chance.choice(["hw-address", "hw-address", "client-id"])
        if wanted not in taken and (key, number) not in keys:
            taken.add(wanted)
            keys.add((key, number))
            said = hardware(number) if key == "hw-address" else b"\x01" + hardware(number)
            made.append({key: said.hex(), "ip-address": dotted_number(wanted)})
    return made


def configuration(chance):
    texts = chance.sample(list(PREFIXES), chance.choice([1, 2, 2, 3, 4]))
    if chance.random() < 0.8:
        texts.sort(key=list(PREFIXES).index)
    size, most = chance.choice(SIZES)
    root = {"server-address": "10.1.0.1", "valid-lifetime": chance.choice([30, 100, 1000, 5000]), "subnet4": []}
    root.update({"offer-hold": chance.choice([1, 10, 60]), "decline-hold": chance.choice([5, 60])})
    taken = set()
    for text in texts:
        pools = subnet_pools(chance, text, chance.choice([size, size, size, size, 8]))
        subnet = {"subnet": text, "pools": [{"pool": "-".join(map(dotted_number, pool))} for pool in pools]}
        subnet["reservations"] = reservations(chance, pools, chance.choice([0, most // 2, most]), taken)
        root["subnet4"].append(subnet)
    return root


# ---- events


class Client:
    """A client: its hardware address, and its client identifier, if any."""

    def __init__(self, chance, number):
        self.hardware = hardware(number)
        self.about = [(61, b"\x01" + self.hardware)] if chance.random() < 0.4 else []

    def identity(self):
        return b"\x01" + self.about[0][1] if self.about else b"\x00\x01" + self.hardware

    def message(self, kind, pairs=(), ciaddr=bytes(4), relay=bytes(4)):
        """A datagram of this type, through a relay or without one."""
        header = bytes([1, 1, 6, 0]) + self.hardware[2:] + bytes(4) + ciaddr + bytes(8) + relay
        options = b"".join(written(*pair) for pair in [(53, bytes([kind])), *pairs, *self.about])
        return header + self.hardware.ljust(16, b"\0") + bytes(192) + COOKIE + options + b"\xff"


def relay_in(subnet):
    """The address of a relay in a subnet."""
    return (judge.prefix(subnet["subnet"])[0] + 1).to_bytes(4, "big")


class Crowd:
    """A history under construction: the configuration, the table, the events so far, and the expected lines."""

    def __init__(self, chance):
        self.chance, self.root = chance, configuration(chance)
        self.table, self.events, self.wanted = Indexed(self.root), [], []
        self.now, self.newcomers = 1000, 0
        self.hostile = [Client(chance, number) for number in range(chance.choice([1, 1, 2, 3]))]
        self.here = (54, address(self.root["server-address"]))

    def says(self, datagram):
        """Adds an event, mostly at the time of the previous one. Returns the words of its line."""
        self.now += self.chance.random() < 0.1
        moment = self.now if self.chance.random() < 0.98 else self.chance.randrange(self.now)
        line, self.table = judge.handle(self.root, self.table, moment, datagram)
        self.events.append(f"{moment} {datagram.hex()}")
        self.wanted.append(line)
        return line.split()[1:]

    def place(self):
        """A subnet, and the address of a relay in it."""
        subnet = self.chance.choice(self.root["subnet4"])
        return subnet, relay_in(subnet)

    def pooled(self, subnet, count):
        """At most `count` consecutive addresses of a subnet's pools, in some order."""
        ranges = [judge.pool(entry["pool"]) for entry in subnet["pools"]]
        inside = [each for first, last in ranges for each in range(first, last + 1)]
        at = self.chance.choice([0, self.chance.randrange(len(inside))])
        some = inside[at : at + count]
        order = self.chance.choice(["rising", "falling", "mixed"])
        return self.chance.sample(some, len(some)) if order == "mixed" else some[:: 1 if order == "rising" else -1]

    def own(self, client, count):
        """At most `count` addresses from the rows of a client."""
        rows = sorted(self.table.of(client.identity()))
        return [row.address.to_bytes(4, "big") for row in self.chance.sample(rows, min(count, len(rows)))]

    def one(self):
        return self.chance.choice(self.hostile)

    def take(self, most):
        """REQUESTs to this server for many addresses of a subnet."""
        (subnet, relay), client = self.place(), self.one()
        for wanted in self.pooled(subnet, self.chance.choice([most, self.chance.randrange(1, most)])):
            self.says(client.message(judge.REQUEST, [(50, wanted.to_bytes(4, "big")), self.here], relay=relay))

    def renew(self, most):
        """REQUESTs without a server identifier, with ciaddr or with option 50."""
        client = self.one()
        for wanted in self.own(client, self.chance.randrange(1, most)):
            relay = self.chance.choice([bytes(4), self.place()[1]])
            pairs, ciaddr = self.chance.choice([((), wanted), ((), wanted), ([(50, wanted)], bytes(4))])
            self.says(client.message(judge.REQUEST, pairs, ciaddr, relay))

    def release(self, most):
        client = self.one()
        for wanted in self.own(client, self.chance.randrange(1, most)):
            self.says(client.message(judge.RELEASE, [self.here], wanted))

    def decline(self, _):
        client = self.one()
        for wanted in self.own(client, 3):
            self.says(client.message(judge.DECLINE, [(50, wanted), self.here]))

    def turn(self, _):
        """REQUESTs to another server, some of them after a DISCOVER in each subnet."""
        client = self.one()
        if self.chance.random() < 0.7:
            for subnet in self.root["subnet4"]:
                self.says(client.message(judge.DISCOVER, relay=relay_in(subnet)))
        for wanted in self.own(client, 3) or [bytes(4)]:
            self.says(client.message(judge.REQUEST, [(50, wanted), (54, OTHER_SERVER)], relay=self.place()[1]))

    def discover(self, _):
        """DISCOVERs of a client with many leases. Some request an address."""
        client = self.one()
        for _time in range(self.chance.choice([1, 1, 2])):
            subnet, relay = self.place()
            pairs = [(50, self.pooled(subnet, 1)[0].to_bytes(4, "big"))] if self.chance.random() < 0.4 else []
            self.asks(client, pairs, relay)

    def asks(self, client, pairs, relay):
        """A DISCOVER, and mostly a REQUEST for the offered address."""
        words = self.says(client.message(judge.DISCOVER, pairs, relay=relay))
        if words[0] == "reply" and self.chance.random() < 0.7:
            offered = bytes.fromhex(words[-1])[16:20]
            self.says(client.message(judge.REQUEST, [(50, offered), self.here], relay=relay))

    def arrive(self, _):
        """DISCOVERs of clients without a lease, some of which have a reservation."""
        _subnet, relay = self.place()
        for _client in range(self.chance.randrange(1, 12)):
            self.newcomers += 1
            number = self.chance.choice([100 + self.newcomers, ANOTHER + self.chance.randrange(60), self.newcomers % 6])
            self.asks(Client(self.chance, number), [], relay)

    def wait(self, _):
        """Lets time pass: to the end of a row or a second before or after it, or by up to 1,000 seconds."""
        ends = [row.end for row in self.table if row.end > self.now]
        if ends and self.chance.random() < 0.7:
            self.now = max(self.now, self.chance.choice(ends) + self.chance.choice([-1, 0, 1]))
        else:
            self.now += self.chance.choice([1, 10, 100, 1000])


def history(chance):
    """A configuration, events, and the judge's result: lines, rows, and no fault."""
    crowd = Crowd(chance)
    acts = [crowd.take, crowd.renew, crowd.release, crowd.decline, crowd.turn, crowd.discover, crowd.arrive, crowd.wait]
    length, most = chance.choice([(120, 80), (120, 120), (300, 250), (700, 400)])
    crowd.take(most)
    while len(crowd.events) < length:
        chance.choices(acts, [6, 4, 1, 1, 3, 4, 5, 2])[0](most)
    return crowd.root, crowd.events, (crowd.wanted, crowd.table, None)


if __name__ == "__main__":
    histories.main(history)
