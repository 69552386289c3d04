#!/usr/bin/env python3
"""Tests random histories with `kdhcp replay`, compared line by line with judge.py.

    histories.py SEED COUNT [--program P] [--leases]

P is the program, by default `crates/kdhcp/out/kdhcp`. Each history is a small configuration (one to three subnets, small
pools, reservations, a few classes and options) and up to 49 datagrams of a few clients. The datagrams are of all types, with
fields that match the table of leases and fields that do not. Their times mostly rise, often to the end of a row or a second
before or after it, and sometimes go back. The first difference is printed with the configuration and as few events as
possible. With --leases the table at the end is also compared, through a store: as `kdhcp leases` prints it, and as `sqlite3`
reads it.
"""
import argparse
import json
import os
import random
import subprocess
import sys
import tempfile

import judge
from day import COOKIE, address, dotted, written  # noqa: E402

ROOT = os.path.join(judge.HERE, "..")
# Prefixes, each with the address from which pools and reservations start.
PREFIXES = {
    "192.0.2.0/24": "192.0.2.8",
    "198.51.100.0/24": "198.51.100.250",
    "192.0.2.8/29": "192.0.2.8",
    "192.0.0.0/16": "192.0.2.8",
    "0.0.0.0/0": "0.0.0.0",
    "255.255.255.0/24": "255.255.255.250",
    "192.0.2.10/32": "192.0.2.10",
}
MACS = [bytes([10, 0, 0, 0, 0, last]) for last in range(1, 6)]
IDENTIFIERS = [b"\x01\xaa", b"\xff", b"\x01\x0a\x00\x00\x00\x00\x01", b"\xff\0\0\0\x07\0\x03", b"\xff\0\0\0\x08\0\x03"]
VENDORS = [b"a", b"b", b"ab", b""]
CODES = [1, 3, 6, 15, 43, 60, 119, 254]
TESTS = [
    "option[60].hex == 'a'",
    "not option[60].exists",
    "substring(option[61].hex, 0, 1) == 0x01",
    "member('VENDOR_CLASS_b') or relay4[1].hex == 'x'",
    "pkt4.mac == 0x0a0000000002 and option[55].exists",
]


# Makes sqlite3 print a store as `kdhcp leases` does, without the last word of each line.
QUERY = """SELECT address, CASE state WHEN 1 THEN 'Offered' WHEN 2 THEN 'Bound' WHEN 3 THEN 'Released' WHEN 4 THEN 'Declined' END,
    CASE length(client) WHEN 0 THEN '-' ELSE lower(hex(client)) END, 'changed', changed, 'ends', ends
    FROM lease ORDER BY address"""


# ---- configurations


def options(chance, often):
    """An `option-data` with some codes, each once; or none."""
    if chance.random() > often:
        return {}
    sizes = [0, 1, 1, 4, 4, 60, 200, 255, 256, 300, 600]
    codes = chance.sample(CODES, chance.randrange(1, 4))
    values = [(code, chance.randbytes(chance.choice(sizes)).hex()) for code in codes]
    return {"option-data": [{"code": code, "data": data, "csv-format": False} for code, data in values]}


def class_definitions(chance):
    names = chance.sample(["one", "two", "VENDOR_CLASS_a"], chance.randrange(0, 4)) + ["DROP"] * (chance.random() < 0.1)
    made = []
    for name in names:
        test = {"test": chance.choice(TESTS)} if chance.random() < 0.8 else {}
        made.append({"name": name, **test, **options(chance, 0.5)})
    return made


def dotted_number(value):
    return dotted(value.to_bytes(4, "big"))


def near(chance, text, count):
    """An address of the prefix, near its base address."""
    first, last = judge.prefix(text)
    return min(last, max(first, judge.number(address(PREFIXES[text])) + chance.randrange(count)))


def subnet_pools(chance, text, taken):
    """Up to three small pools of the prefix that do not overlap earlier pools."""
    made = []
    for _ in range(chance.choice([0, 1, 1, 1, 2, 3])):
        start = near(chance, text, 6)
        end = min(judge.prefix(text)[1], start + chance.choice([0, 0, 1, 2]))
        if all(each not in taken for each in range(start, end + 1)):
            taken.update(range(start, end + 1))
            made.append({"pool": f"{dotted_number(start)} - {dotted_number(end)}", **options(chance, 0.2)})
    return made


def subnet_reservations(chance, text, taken):
    made = []
    for client in chance.sample(MACS + IDENTIFIERS, chance.choice([0, 0, 1, 2, 3])):
        wanted = near(chance, text, 10)
        if wanted not in taken:
            taken.add(wanted)
            key = "hw-address" if client in MACS else "client-id"
            made.append({key: client.hex(), "ip-address": dotted_number(wanted)})
    return made


def configuration(chance, counts=(1, 1, 2, 3)):
    """A configuration with as many subnets as one of these numbers."""
    prefixes = chance.choices(list(PREFIXES), [9, 6, 2, 3, 1, 1, 1], k=chance.choice(counts))
    servers = [dotted_number(judge.prefix(prefixes[0])[0] | 1), "192.0.2.10", "203.0.113.1"]
    root = {"server-address": chance.choices(servers, [16, 1, 1])[0]}
    if chance.random() < 0.9:
        lifetime = chance.choice([1, 20, 100, 100, 1000, 1000, 2147483647])
        root["valid-lifetime"] = lifetime
        if chance.random() < 0.3:
            root["rebind-timer"] = chance.randrange(lifetime + 1)
            root["renew-timer"] = chance.randrange(root["rebind-timer"] + 1)
    if chance.random() < 0.8:
        root["offer-hold"] = chance.choice([1, 10, 30, 60, 300])
    if chance.random() < 0.8:
        root["decline-hold"] = chance.choice([1, 5, 40, 300])
    root.update(options(chance, 0.4))
    root["client-classes"] = class_definitions(chance)
    names = [entry["name"] for entry in root["client-classes"]] + ["ALL", "VENDOR_CLASS_b", "none"]
    in_pools, kept = set(), set()
    root["subnet4"] = []
    for text in prefixes:
        subnet = {"subnet": text, **options(chance, 0.3)}
        if chance.random() < 0.25:
            subnet["client-class"] = chance.choice(names)
        subnet["pools"] = subnet_pools(chance, text, in_pools)
        subnet["reservations"] = subnet_reservations(chance, text, kept)
        root["subnet4"].append(subnet)
    return root


# ---- events


class Client:
    """A client. Its hardware address and identifier stay the same."""

    def __init__(self, chance):
        self.hardware = chance.choice(MACS)
        kinds = [(1, 6), (6, 6), (1, 0), (1, 5), (1, 16), (1, 255)]
        self.htype, self.hlen = chance.choices(kinds, [40, 2, 1, 1, 1, 1])[0]
        self.identifier = chance.choices([None, b""] + IDENTIFIERS + [bytes(280)], [12, 1, 2, 2, 2, 1, 1, 0.1])[0]
        self.vendor = chance.choice([None, None] + VENDORS)
        self.relay = None
        self.circuit = b""
        # the identifier of the server that its relay sets, and sub-option 11 with it or with a value of another length; or none
        self.server, self.override = None, b""

    def identity(self, root):
        kind_and_address = bytes([0, self.htype]) + self.hardware.ljust(16, b"\0")[: min(self.hlen, 16)]
        is_by_hardware = not root.get("match-client-id", True) and self.hlen > 0
        return b"\x01" + self.identifier if self.identifier and not is_by_hardware else kind_and_address


def own_reserved(root, client):
    """The addresses that are reserved for a client by its hardware address or its identifier."""
    own = {client.hardware.hex(), (client.identifier or b"").hex()}
    entries = [entry for subnet, _ in judge.subnets_of(root) for entry in subnet["reservations"]]
    return [each for entry in entries if own & {entry.get("hw-address"), entry.get("client-id")} for each in judge.reserved_by(entry)]


def some_address(chance, root, rows, client):
    """An address that is likely to matter: of a row, of a pool or next to it, of a reservation, or a random one."""
    own = [row.address for row in rows if row.client == client.identity(root)]
    own += own_reserved(root, client) if judge.is_kea(root) and chance.random() < 0.5 else []
    pools = [judge.pool(entry["pool"]) for subnet, _ in judge.subnets_of(root) for entry in subnet["pools"]]
    likely = [row.address for row in rows] + judge.all_reserved(root)
    likely += [each for first, last in pools for each in (first - 1, first, last, last + 1)]
    place = chance.random()
    if place < 0.03:
        return chance.randbytes(4)
    if place < 0.1:
        ends = [each for subnet, _ in judge.subnets_of(root) for each in judge.prefix(subnet["subnet"])]
        likely = [each + beside for each in ends for beside in (-1, 0, 1)]
    wanted = chance.choice(own) if own and place > 0.3 else chance.choice(likely or [0])
    return min(2**32 - 1, max(0, wanted)).to_bytes(4, "big")


def some_relay(chance, root):
    """A relay's address: mostly in one of the subnets, or none."""
    place = chance.random()
    if place < 0.6:
        return bytes(4)
    if place < 0.63:
        return address("203.0.113.7")
    subnet, network = chance.choice(judge.subnets_of(root))
    relays = judge.relays_of(subnet, network)
    if relays and place < 0.8:
        return address(chance.choice(relays))
    first, last = judge.prefix(subnet["subnet"])
    return min(last, first + chance.choice([0, 1, 9, 255])).to_bytes(4, "big")


def some_override(chance, root, client):
    """An identifier of the server that a relay may set, mostly its own address, and the sub-option with it; sometimes of another
    length, twice, or left out."""
    others = [address(each) for each in (root["server-address"], "192.0.2.99", "10.0.0.9", "0.0.0.0", "255.255.255.255")]
    identifier = chance.choice([client.relay] * 5 + others)
    value = chance.choice([identifier] * 6 + [identifier[:3], identifier + b"\0", b""])
    set_once = written(11, value)
    return identifier, chance.choice([set_once] * 6 + [set_once + written(11, chance.choice(others)), b""])


def some_server(chance, root, client):
    """The value of option 54: mostly this server's address or the identifier that a relay sets, sometimes another server's."""
    own = address(root["server-address"])
    servers = [own] * 5 + [address("192.0.2.99")] + [own if client.server is None else client.server] * 4
    return chance.choice(servers)


def some_moment(chance, rows, now):
    """Mostly a little later; often the end of a row or a second before or after it; sometimes earlier; rarely the last time."""
    place = chance.random()
    if place < 0.25 and rows:
        return max(0, min(judge.END_OF_TIME - 1, chance.choice(rows).end + chance.choice([-1, 0, 1])))
    if place < 0.33:
        return chance.randrange(now + 1)
    if place < 0.332:
        return judge.END_OF_TIME - chance.choice([0, 1])
    return min(judge.END_OF_TIME - 1, now + chance.choice([0, 0, 1, 1, 1, 2, 5, 10, 20, 60]))


def message_options(chance, root, rows, client, kind):
    """The options of a message after its type, as pairs of code and value."""
    pairs = []
    if chance.random() < (0.9 if kind in (judge.REQUEST, judge.DECLINE) else 0.3):
        pairs.append((50, some_address(chance, root, rows, client)))
    if chance.random() < 0.5 and kind in (judge.REQUEST, judge.DECLINE, judge.RELEASE) or chance.random() < 0.05:
        pairs.append((54, some_server(chance, root, client)))
    if chance.random() < 0.35:
        pairs.append((55, bytes(chance.choices(CODES + [51, 54, 82], k=chance.randrange(6)))))
    if chance.random() < 0.3:
        sizes = [b"", b"\x05", b"\x00\x05\xdc", bytes(2), b"\x02\x40", b"\x02\x80", b"\x05\xdc", b"\xff\xff"]
        pairs.append((57, chance.choice(sizes)))
    if client.vendor is not None:
        pairs.append((60, client.vendor))
    if client.identifier is not None:
        pairs.append((61, client.identifier))
    if chance.random() < 0.25:
        sizes = [0, 1, 5, 40, 260, 276, 277, 294, 295, 600]
        overrides = written(11, address("192.0.2.99"))
        pairs.append((82, chance.choice([b"\x01\x01x", b"\x01\x00", overrides, chance.randbytes(chance.choice(sizes))])))
    if judge.is_kea(root) and chance.random() < (0.8 if any(client.relay) else 0.5):
        link = some_address(chance, root, rows, client)
        link = written(5, chance.choice([link, link, link, link[:3], link + b"\0"]))
        pairs = [pair for pair in pairs if pair[0] != 82]
        pairs.append((82, client.circuit + chance.choice([b"", b"", link]) + chance.choice([b"", client.override, client.override])))
    if judge.is_kea(root) and chance.random() < 0.3:
        pairs.append((51, some_wish(chance, root)))
    return pairs


def some_wish(chance, root):
    """The value of option 51: mostly a lifetime of the configuration or one beside it, none (0), or a value of another length."""
    holders = [root, *root["client-classes"], *[each for pair in judge.subnets_of(root) for each in pair]]
    likely = [holder[key] for holder in holders for key in ("valid-lifetime", "min-valid-lifetime", "max-valid-lifetime") if key in holder]
    near = chance.choice(likely or [7200]) + chance.choice([-1, 0, 0, 1])
    value = chance.choice([near, near, near, 0, 1, 50, 2**32 - 1]).to_bytes(4, "big")
    return chance.choice([value] * 12 + [b"", value[:3], value[1:], value + b"\0"])


def spread(chance, pairs):
    """The three fields that hold options: options, file, sname; mostly only the first is used."""
    if chance.random() < 0.9:
        field = b"".join(written(*pair) for pair in pairs)
        return field + chance.choice([b"", b"\xff", b"\xff" + bytes(9)]), bytes(128), bytes(64)
    areas = [written(*pairs[0]) + written(52, bytes([chance.randrange(5)])), b"", b""]
    for code, value in pairs[1:]:
        cut = chance.randrange(len(value) + 1)
        for part in (value[:cut], value[cut:]):
            at = chance.randrange(3)
            if at and len(areas[at]) + len(written(code, part)) >= (0, 128, 64)[at]:
                at = 0
            areas[at] += written(code, part)
    return areas[0] + b"\xff", (areas[1] + b"\xff").ljust(128, b"\0"), (areas[2] + b"\xff").ljust(64, b"\0")


def datagram(chance, root, rows, clients):
    kind = chance.choices([1, 3, 4, 7, 8, 2, 5, 6], [34, 40, 6, 8, 4, 1, 1, 1])[0]
    client = chance.choice(clients) if chance.random() < 0.93 else Client(chance)
    if client.relay is None or chance.random() < 0.2:
        client.relay = some_relay(chance, root)
    if judge.is_kea(root) and chance.random() < 0.15:
        client.vendor = chance.choice([None, *VENDORS])
    if judge.is_kea(root) and chance.random() < 0.4:
        client.circuit = chance.choice([b"", b"\x01\x01x", b"\x01\x01x", b"\x01\x02xy"])
    if judge.is_kea(root) and chance.random() < 0.3:
        client.server, client.override = some_override(chance, root, client)
    pairs = [(53, bytes([kind]))] + message_options(chance, root, rows, client, kind)
    says_address = chance.random() < {judge.DISCOVER: 0.05, judge.REQUEST: 0.25}.get(kind, 0.85)
    ciaddr = some_address(chance, root, rows, client) if says_address else bytes(4)
    relay = client.relay
    own = [row.address for row in rows if row.client == client.identity(root) and row.state == "Bound"]
    reserved, place = own_reserved(root, client), chance.random()
    if judge.is_kea(root) and kind == judge.REQUEST and own and place < 0.4:
        ciaddr, relay = chance.choice([each for each in own if each in reserved] or own).to_bytes(4, "big"), bytes(4)
        left_out = chance.choice([(54,), (54, 82), (54, 82), (54, 60, 82)])
        pairs = [pair for pair in pairs if pair[0] not in left_out]
    elif judge.is_kea(root) and kind == judge.REQUEST and reserved and place > 0.6:
        chosen = [(50, chance.choice(reserved).to_bytes(4, "big")), (54, some_server(chance, root, client))]
        pairs = [pair for pair in pairs if pair[0] not in (50, 54)] + chosen
    op = chance.choices([1, 2, 3], [97, 2, 1])[0]
    flags = chance.choice([bytes(2), bytes(2), b"\x80\x00", b"\x7f\xff", b"\x81\x23"])
    others = chance.choice([bytes(8), bytes(8), chance.randbytes(8)])
    field, file, sname = spread(chance, pairs)
    header = bytes([op, client.htype, client.hlen, chance.choice([0, 1, 16])]) + chance.randbytes(6) + flags
    chaddr = client.hardware.ljust(16, b"\0")
    whole = header + ciaddr + others + relay + chaddr + sname + file + COOKIE + field
    return whole[: chance.randrange(len(whole))] if chance.random() < 0.01 else whole


def taken_offer(message, line):
    """The REQUEST by which a client takes what this line offers to its DISCOVER, or None if it offers nothing."""
    reply = bytes.fromhex(line.split(" ")[-1]) if " reply " in line else b""
    if reply[240:243] != b"\x35\x01\x02":
        return None
    found = {**judge.readable(message), 50: reply[16:20], 53: b"\x03", 54: reply[245:249]}
    return message[:44] + bytes(192) + COOKIE + b"".join(written(*pair) for pair in found.items()) + b"\xff"


def bad_line(chance, event):
    """The line of an event with one character replaced, which is mostly malformed."""
    at = chance.randrange(len(event))
    return event[:at] + chance.choice(["", " ", "g", "\r", "-", "00000000000000000000"]) + event[at + 1 :]


def history(chance, configuration=configuration):
    """A configuration, events, and the result of judge.py: lines, rows, and the fault that ends them or None."""
    root = configuration(chance)
    clients = [Client(chance) for _ in range(chance.choice([2, 3, 4]))]
    rows, events, now, chosen = judge.Rows(), [], chance.choice([0, 100, 1000]), None
    for _ in range(chance.randrange(1, 50)):
        moment, message = some_moment(chance, rows, now), chosen or datagram(chance, root, rows, clients)
        events.append(f"{moment} {message.hex()}")
        if chance.random() < 0.001:
            events[-1] = bad_line(chance, events[-1])
        if moment >= judge.END_OF_TIME:
            break
        line, rows = judge.handle(root, rows, moment, message)
        chosen = taken_offer(message, line) if judge.is_kea(root) and chance.random() < 0.6 else None
        now = judge.moment_of(rows, now if chance.random() < 0.5 else moment)
    return root, events, judge.replay(root, events)


# ---- the comparison


def table_moment(events):
    """The time at which the table is read: that of the last event, or 0 if its line is malformed."""
    event = judge.event_of(events[-1])
    return min(event[0], judge.END_OF_TIME - 1) if event else 0


def words_of(root, path):
    """The words of the command line for a configuration, which is written to a file."""
    with open(path, "w", encoding="utf-8") as file:
        json.dump({"Dhcp4": root}, file)
    return ["--config", path]


def program_lines(program, folder, root, events, with_leases, words_of=words_of):
    """The output of the program for the events, followed by the table if it is requested."""
    path, store = os.path.join(folder, "config.json"), os.path.join(folder, "leases.db")
    words = words_of(root, path)
    for suffix in ("", "-journal", "-wal"):
        if os.path.exists(store + suffix):
            os.remove(store + suffix)
    words += ["--store", store] if with_leases else []
    text = "".join(f"{event}\n" for event in events)
    done = subprocess.run([program, "replay"] + words, input=text.encode(), capture_output=True, check=False)
    out = (done.stdout + done.stderr).decode().splitlines()
    if with_leases:
        words += ["--at", str(table_moment(events))]
        done = subprocess.run([program, "leases"] + words, capture_output=True, check=False)
        out += (done.stdout + done.stderr).decode().splitlines()
        out += sqlite_lines(store)
    return out


def sqlite_lines(store):
    """The rows of the store as sqlite3 reads them."""
    words = ["sqlite3", "-separator", " ", store, QUERY]
    done = subprocess.run(words, capture_output=True, check=False)
    rows = (line.split(" ", 1) for line in done.stdout.decode().splitlines())
    return [f"{dotted_number(int(first))} {rest}" for first, rest in rows] + done.stderr.decode().splitlines()


def wanted_lines(events, judged, with_leases):
    lines, rows, fault = judged
    wanted = lines + ([fault] if fault else [])
    if with_leases:
        lines = judge.lease_lines(rows, table_moment(events))
        wanted += lines + [line.rsplit(" ", 1)[0] for line in lines]
    return wanted


def first_difference(one, other):
    """The index of the first line that differs, or None."""
    for at in range(max(len(one), len(other))):
        if one[at : at + 1] != other[at : at + 1]:
            return at
    return None


def show(differs, root, events):
    """Prints a difference, with as few events as possible."""
    at = 0
    while at < len(events):
        fewer = events[:at] + events[at + 1 :]
        if fewer and differs(root, fewer, judge.replay(root, fewer)) is not None:
            events = fewer
        else:
            at += 1
    line, came, wanted = differs(root, events, judge.replay(root, events))
    print(json.dumps({"Dhcp4": root}), *events, sep="\n")
    print(f"line {line + 1}\nprogram {came}\njudge   {wanted}")


def main(history=history, words_of=words_of):
    words = argparse.ArgumentParser()
    words.add_argument("seed", type=int)
    words.add_argument("count", type=int)
    words.add_argument("--program")
    words.add_argument("--leases", action="store_true")
    words = words.parse_args()
    if words.program is None:
        subprocess.run([os.path.join(ROOT, "kdhcp"), "--help"], stdout=subprocess.DEVNULL, check=True)
    program = words.program or os.path.join(ROOT, "crates", "kdhcp", "out", "kdhcp")
    handled = 0
    with tempfile.TemporaryDirectory() as folder:

        def differs(root, events, judged):
            came = program_lines(program, folder, root, events, words.leases, words_of)
            wanted = wanted_lines(events, judged, words.leases)
            at = first_difference(came, wanted)
            return None if at is None else (at, came[at : at + 1], wanted[at : at + 1])

        for number in range(words.count):
            root, events, judged = history(random.Random(words.seed * 1_000_000 + number))
            if differs(root, events, judged) is not None:
                print(f"history {number}")
                show(differs, root, events)
                sys.exit(1)
            handled += len(events)
    print(f"{words.count} histories, {handled} events: no difference")


if __name__ == "__main__":
    main()
