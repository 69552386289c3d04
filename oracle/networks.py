#!/usr/bin/env python3
"""Tests random histories over shared networks with `kdhcp replay --kea`, compared line by line with judge.py.

    networks.py SEED COUNT [--program P] [--leases]

The configurations are those of histories.py, with most of their subnets in shared networks: of one to four subnets, with
options and relays. In most files networks, subnets and pools have classes, of which a client may need one, two or three, and
some clients have a reservation in several subnets of a network. Clients come through these relays too, and change what puts them
into a class. The whole server, networks, subnets, classes and reservations give values to boot fields, some of them empty. Some
relays select a link, and some set the identifier by which their clients name the server. Some clients renew without the relay
that says their class or their circuit. Some servers are authoritative, and some ignore client identifiers. Some reservations are
by circuit or by DUID, have no address, or have options. In half of the files reservations give classes, and tests, pools and some
subnets ask for them, or for clients with a reservation or without one.
In half of the files the whole server, networks, subnets and classes give lifetimes, and all but classes times of renewal or shares
for them. Some clients ask for a lifetime.
"""
import json

import histories
import judge

RELAYS = ["10.0.0.1", "10.0.0.2", "192.0.2.9", "198.51.100.251"]
# Classes by what a relay says of the line, and by what clients say: some in two of them, and some in none.
CLASSES = {
    "line": "relay4[1].exists",
    "x": "relay4[1].hex == 'x'",
    "open": "relay4[1].hex == 'x' or relay4[1].hex == 'xy'",
    "a": "option[60].hex == 'a'",
    "ab": "substring(option[60].hex, 0, 1) == 'a'",
}
# Values of the keys for boot fields: those that give nothing or hide others, short ones, and the longest.
BOOTS = {
    "next-server": ["", "0.0.0.0", "0.0.0.0", "10.9.8.7", "192.0.2.200", "255.255.255.254"],
    "server-hostname": ["", "", "a", "boot.example", "b\u00fcro", "h" * 62 + "E"],
    "boot-file-name": ["", "", "a", 'pxe/grub \\ "0".efi', "\u20ac/x", "f" * 126 + "E"],
}
# Classes that a reservation gives, of which one has a test of its own, and tests that ask for them or for a reservation.
GIVEN = ["given", "free", "a", "DROP"]
KNOWING = {
    "known": "member('KNOWN')",
    "unknown a": "member('UNKNOWN') and option[60].hex == 'a'",
    "not given": "not member('given')",
    "both": "member('given') and member('free') or member('known')",
}
SECONDS = [1, 2, 3, 5, 20, 60, 100, 100, 300, 1000, 3601, 2147483647]
SHARES = [0.001, 0.1, 0.285, 0.2851, 0.5, 0.5, 0.6, 0.875, 0.999]
LIFETIMES = ["valid-lifetime", "min-valid-lifetime", "max-valid-lifetime"]
TIMERS = ["renew-timer", "rebind-timer", "calculate-tee-times", "t1-percent", "t2-percent"]


def some_relays(chance):
    """Relays of a subnet or a network, or none."""
    return {"relay": {"ip-addresses": chance.sample(RELAYS, chance.choice([1, 1, 2]))}} if chance.random() < 0.3 else {}


def guard(chance, holder, names, often):
    """Gives a network, a subnet or a pool a class; or none."""
    holder.pop("client-class", None)
    if chance.random() < often:
        holder["client-class"] = chance.choice(names)


def with_guards(chance, root):
    """The configuration with classes of its networks, subnets and pools, so that a client may need several at once."""
    often = chance.choice([0, 0.3, 0.5, 0.8])
    defined = [entry["name"] for entry in root["client-classes"]]
    names = defined + [name for name in defined if name in CLASSES] * 3 + ["ALL", "VENDOR_CLASS_b", "none"]
    for subnet, _ in judge.subnets_of(root):
        guard(chance, subnet, names, often)
        for entry in subnet["pools"]:
            guard(chance, entry, names, often / 2)
    for holder in root["shared-networks"]:
        guard(chance, holder, names, often / 3)
        if chance.random() < 0.5:
            holder["subnet4"][-1].pop("client-class", None)
    return root


def with_doubles(chance, root):
    """The configuration with reservations of some clients in several subnets of a network."""
    often = chance.choice([0, 0.4, 0.8])
    kept = set(judge.all_reserved(root))
    for network_of_all in root["shared-networks"]:
        for client in chance.sample(histories.MACS, 4):
            for subnet in network_of_all["subnet4"]:
                wanted = histories.near(chance, subnet["subnet"], 10)
                is_there = any(entry.get("hw-address") == client.hex() for entry in subnet["reservations"])
                if chance.random() < often and wanted not in kept and not is_there:
                    kept.add(wanted)
                    entry = {"hw-address": client.hex(), "ip-address": histories.dotted_number(wanted)}
                    subnet["reservations"].insert(chance.choice([0, len(subnet["reservations"])]), entry)
    return root


def network(chance, number, subnets):
    """A shared network of these subnets."""
    return {"name": f"link {number}", **histories.options(chance, 0.4), **some_relays(chance), "subnet4": subnets}


def with_hosts(chance, root):
    """The configuration with reservations by circuit and by DUID, some without an address, and options of reservations."""
    often = chance.choice([0, 0.3, 0.7])
    for subnet, _ in judge.subnets_of(root):
        keys = [("circuit-id", b"x"), ("circuit-id", b"xy"), ("duid", b"\0\x03")]
        chance.shuffle(keys)
        for entry in subnet.get("reservations", []):
            if keys and chance.random() < often:
                key, value = keys.pop()
                entry.pop("hw-address", entry.pop("client-id", None))
                entry[key] = value.hex()
            if chance.random() < 0.2 * often:
                entry.pop("ip-address")
            entry.update(histories.options(chance, 0.5 * often))
    return root


def with_known(chance, root):
    """The configuration with classes that reservations give, and with tests, subnets and pools that ask for them, in some files."""
    if chance.random() < 0.5:
        return root
    often = chance.choice([0.2, 0.5, 0.8])
    root["client-classes"][:0] = [{"name": "given", **histories.options(chance, 0.7)}, {"name": "free"}]
    tests = [(name, test) for name, test in KNOWING.items() if chance.random() < often]
    names = {entry["name"] for entry in root["client-classes"]}
    root["client-classes"] += [{"name": name, "test": test, **histories.options(chance, 0.5)} for name, test in tests if name not in names]
    if "known" not in {entry["name"] for entry in root["client-classes"]}:
        root["client-classes"] = [entry for entry in root["client-classes"] if entry["name"] != "both"]
    wanted = ["KNOWN", "UNKNOWN", "given", "free", *(entry["name"] for entry in root["client-classes"])]
    for subnet, _ in judge.subnets_of(root):
        for entry in subnet["reservations"]:
            if chance.random() < often:
                entry["client-classes"] = chance.sample(GIVEN[:3], chance.choice([1, 1, 2])) + GIVEN[3:] * (chance.random() < 0.05)
        for entry in [*subnet["pools"], *[subnet] * (chance.random() < 0.15)]:
            if chance.random() < often / 2:
                entry["client-class"] = chance.choice(wanted)
    return root


def with_order(chance, root):
    """The configuration with another order of the kinds by which reservations are looked for, in some files."""
    if chance.random() < 0.4:
        kinds = ["hw-address", "duid", "circuit-id", "client-id"]
        root["host-reservation-identifiers"] = chance.sample(kinds, 4)
    return root


def boot_keys(chance, often):
    """Values for some of the boot fields, or none."""
    return {key: chance.choice(values) for key, values in BOOTS.items() if chance.random() < often}


def with_boot_keys(chance, root):
    """The configuration with boot fields of the whole server, and of its networks, subnets, classes and reservations."""
    often = chance.choice([0, 0.2, 0.4, 0.7])
    subnets = [subnet for subnet, _ in judge.subnets_of(root)]
    hosts = [entry for subnet in subnets for entry in subnet.get("reservations", [])]
    for holder in [root, *root["shared-networks"], *subnets, *root["client-classes"], *hosts]:
        holder.update(boot_keys(chance, often))
    return root


def is_usual(lifetimes):
    """Whether the bounds of a lifetime are in order."""
    least, usual, most = lifetimes
    return least <= usual <= most


def is_taken(places):
    """Whether Kea takes the times of the first of these places: lifetimes, timers and shares are in order, with those above it."""
    renew, rebind = (judge.nearest(places, key, None) for key in TIMERS[:2])
    shares = 0 < judge.nearest(places, "t1-percent", 0.5) < judge.nearest(places, "t2-percent", 0.875) < 1
    in_order = None in (renew, rebind) or renew <= rebind
    return is_usual(judge.lifetimes(places)) and in_order and (shares or not judge.nearest(places, "calculate-tee-times", False))


def are_sent(root):
    """Whether the times of the whole server that are given or calculated are ones that Kea sends with its own lifetime."""
    lifetime = judge.lifetimes([root])[1]
    sent = judge.timers_sent([root], lifetime)
    is_calculated = root.get("calculate-tee-times", False)
    asked = [is_calculated or key in root for key in TIMERS[:2]]
    renew, rebind = (root.get(key, usual) for key, usual in zip(TIMERS, (lifetime // 2, lifetime * 7 // 8)))
    return all(time or not is_asked for time, is_asked in zip(sent, asked)) and (is_calculated or renew <= rebind)


def time_keys(chance, often):
    """Values for some of the keys of times, or none."""
    values = {key: chance.choice(SECONDS) for key in LIFETIMES if chance.random() < often}
    values.update({key: chance.choice([0, *SECONDS]) for key in TIMERS[:2] if chance.random() < often / 2})
    values.update({key: chance.choice([*SHARES, round(chance.random(), 4)]) for key in TIMERS[3:] if chance.random() < often / 2})
    return {**values, TIMERS[2]: chance.random() < 0.7} if chance.random() < often else values


def with_times(chance, holder, above, often):
    """Gives a place some keys of times: those of the first of several attempts that go together, or none."""
    for _ in range(8):
        values = time_keys(chance, often)
        if is_taken([{**holder, **values}, *above]) and (above or are_sent({**holder, **values})):
            holder.update(values)
            return


def with_lifetime(chance, entry, often):
    """Gives a class a lifetime, perhaps with bounds; or none."""
    values = {key: chance.choice(SECONDS) for key in LIFETIMES if chance.random() < often}
    usual = judge.lifetimes_of_class(values)
    if usual and is_usual(usual) and (LIFETIMES[0] in values or len(values) == 1):
        entry.update(values)


def with_all_times(chance, root):
    """The configuration with times of the whole server, and of its networks, subnets and classes."""
    often = chance.choice([0, 0, 0.2, 0.6])
    with_times(chance, root, [], often)
    for each in root["shared-networks"]:
        with_times(chance, each, [root], often)
    for subnet, network_of_it in judge.subnets_of(root):
        with_times(chance, subnet, [network_of_it, root], often)
    for entry in root["client-classes"]:
        with_lifetime(chance, entry, often)
    return root


def configuration(chance):
    """A configuration of histories.py in Kea's form, apart from the keys of kea_words."""
    root = histories.configuration(chance, (1, 2, 2, 3, 4))
    for key in ("renew-timer", "rebind-timer"):
        root.pop(key, None)
    root["client-classes"] += [{"name": name, "test": test} for name, test in CLASSES.items() if chance.random() < 0.5]
    if chance.random() < 0.4:
        root["authoritative"] = chance.choice([True, True, False])
    if chance.random() < 0.4:
        root["match-client-id"] = chance.choice([False, False, True])
    subnets = [{**subnet, **some_relays(chance)} for subnet in root["subnet4"]]
    root["shared-networks"], root["subnet4"] = [], []
    while subnets:
        count = chance.choice([0, 1, 2, 2, 3, 4])
        taken, subnets = subnets[: count or 1], subnets[count or 1 :]
        if count:
            root["shared-networks"].append(network(chance, len(root["shared-networks"]), taken))
        else:
            root["subnet4"] += taken
    root = with_hosts(chance, with_doubles(chance, with_guards(chance, root)))
    return with_all_times(chance, with_boot_keys(chance, with_order(chance, with_known(chance, root))))


def history(chance):
    return histories.history(chance, configuration)


def kea_words(root, path):
    """The words of the command line for a configuration of Kea's, which is written to a file."""
    renamed = {"offer-hold": "offer-lifetime", "decline-hold": "decline-probation-period"}
    text = {renamed.get(key, key): value for key, value in root.items() if key != "server-address"}
    with open(path, "w", encoding="utf-8") as file:
        json.dump({"Dhcp4": text}, file)
    return ["--kea", path, "--server-address", root["server-address"]]


if __name__ == "__main__":
    histories.main(history, kea_words)
