#!/usr/bin/env python3
"""Computes what a server must print for a list of events, with a slow and simple program.

    judge.py [--config F] [--leases M]     reads events from standard input (`MOMENT HEX`, one a line)

For each event it prints the line that `kdhcp replay` must print. With `--leases M` it then prints the table of leases at the
time M. The table is a plain list, and each lookup goes through all of it. The rules are implemented here a second time, from
RFC 2131, 2132, 3046, 3396, 3527, 5107, 6842 and the project's own rules. The program was written separately from the server, in another
language, and uses none of the server's code. With networks, even if there are none (`shared-networks`), the rules are those of a
configuration of Kea's, which also gives values to the fields siaddr, sname and file, and lifetimes by class, subnet and network.

It supports the class tests that answers.py supports: strings, hexadecimal, option, relay4, pkt4.mac, substring without
negative numbers, member, ==, not, and, or. It does not support classes with token files.
"""
import argparse
import json
import os
import re
import sys
from typing import NamedTuple, Optional

HERE = os.path.dirname(os.path.abspath(__file__))
sys.path[:0] = [HERE, os.path.join(HERE, "..", "examples", "replay")]
from answers import classes, given, hexadecimal, number, pool, prefix, relay_options  # noqa: E402
from day import COOKIE, address, dotted, readable, unheard, written  # noqa: E402

BUILT_IN = {
    "server-address": "192.0.2.1",
    "valid-lifetime": 3600,
    "offer-hold": 60,
    "decline-hold": 600,
    "subnet4": [{"subnet": "192.0.2.0/24", "pools": [{"pool": "192.0.2.10 - 192.0.2.11"}]}],
}
DISCOVER, REQUEST, DECLINE, RELEASE = 1, 3, 4, 7
# Times are less than the first of these. Numbers in a line are less than the second.
END_OF_TIME = 2**40
END_OF_NUMBERS = 2**64
LONGEST_LINE = 131072
# The keys of a configuration of Kea's for the fields of a reply by which its client boots, each with the size of its field.
BOOT = {"next-server": 4, "server-hostname": 64, "boot-file-name": 128}


class Row(NamedTuple):
    """A row of the table, for one address."""

    address: int
    client: bytes
    state: str
    changed: int
    end: int


class Rows(list):
    """The table: a plain list of rows. Each lookup goes through all of it."""

    def at(self, wanted):
        """The row of an address, or None."""
        for row in self:
            if row.address == wanted:
                return row
        return None

    def of(self, client):
        """The rows of a client."""
        return [row for row in self if row.client == client]

    def latest(self):
        """The time of the latest change, or 0 if there are no rows."""
        return max([0] + [row.changed for row in self])

    def with_row(self, new):
        """The table with this row instead of the old row of its address."""
        return Rows([row for row in self if row.address != new.address] + [new])

    def in_order(self, asked):
        """The addresses of the pools of the client's subnet that it may have."""
        return [each for first, last in pools(asked) for each in range(first, last + 1) if fits(asked, each)]


class Asked(NamedTuple):
    """A message with all that is needed to decide its reply."""

    root: dict
    rows: Rows
    now: int
    datagram: bytes
    found: dict
    held: list
    subnet: Optional[dict]
    keeps: bool
    client: bytes


class Plan(NamedTuple):
    """A reply before it is written: OFFER, ACK, NAK, or INFORMED for the ACK to an INFORM; and the assigned address, or 0."""

    kind: str
    yiaddr: int


# ---- the fields of a message


def mac(datagram):
    """The hardware address: the first hlen bytes of chaddr, at most 16."""
    return datagram[28 : 28 + min(datagram[2], 16)]


def identity(root, datagram, found):
    """The identity of the client: 1 and its identifier, or else 0, the hardware type and the hardware address.

    With match-client-id false the hardware comes first."""
    by_hardware = b"\x00" + datagram[1:2] + mac(datagram)
    if found.get(61) and (root.get("match-client-id", True) or not mac(datagram)):
        return b"\x01" + found[61]
    return by_hardware


def ciaddr(asked):
    return number(asked.datagram[12:16])


def giaddr(asked):
    return number(asked.datagram[24:28])


def requested(asked):
    """The address of option 50, or None."""
    return number(asked.found[50]) if 50 in asked.found else None


def server_address(root):
    return number(address(root["server-address"]))


def set_identifier(asked):
    """The server identifier that a relay sets by sub-option 11 of its information (RFC 5107), or None."""
    identifier = relay_options(asked.found).get(11, b"")
    return number(identifier) if is_kea(asked.root) and giaddr(asked) and len(identifier) == 4 else None


def server_identifier(asked):
    """The server identifier of a reply: the one that a relay sets, or else the address of the server."""
    identifier = set_identifier(asked)
    return server_address(asked.root) if identifier is None else identifier


def names_another_server(asked):
    """Whether a message names a server by neither this one's address nor the identifier that the relay of the message sets."""
    names = (server_address(asked.root), set_identifier(asked))
    return 54 in asked.found and number(asked.found[54]) not in names


def subnets_of(root):
    """The subnets, each with its shared network or an empty one: those of networks first."""
    shared = [(subnet, network) for network in root.get("shared-networks", []) for subnet in network["subnet4"]]
    return shared + [(subnet, {}) for subnet in root.get("subnet4", [])]


def classes_of(*holders):
    """The classes of those of a network, a subnet and a pool that have one: a client must be in each."""
    return [holder["client-class"] for holder in holders if "client-class" in holder]


def has_classes(names, held):
    return all(name.encode() in held for name in names)


def relays_of(subnet, network):
    """The relays of a subnet: its own, or else those of its network."""
    return (subnet.get("relay") or network.get("relay") or {}).get("ip-addresses", [])


def contains(subnet, wanted):
    first, last = prefix(subnet["subnet"])
    return first <= wanted <= last


def home_of(subnet, network):
    """What serves where a subnet does: itself, or its network with the pools and the reservations of all its subnets.

    In a network these are only for clients in its class and in the class of their subnet, as far as there are such (`guards`)."""
    if not network:
        return subnet
    parts = network["subnet4"]
    guarded = {
        key: [{**entry, "guards": classes_of(network, part)} for part in parts for entry in part.get(key, [])]
        for key in ("pools", "reservations")
    }
    return {"parts": parts, "network": network, **guarded}


def admits(entry, held):
    """Whether a pool or a reservation is for a client that is in these classes: its own, and those that guard it in a network."""
    return has_classes(classes_of(entry) + entry.get("guards", []), held)


def parts_of(home):
    """The subnets of what serves."""
    return home.get("parts", [home])


def is_kea(root):
    """Whether the rules are those of a configuration of Kea's: one with networks, even if there are none."""
    return "shared-networks" in root


def selected_link(root, datagram, found):
    """The link that a relay selects by sub-option 5 of its information (RFC 3527), or None."""
    link = relay_options(found).get(5, b"")
    return number(link) if is_kea(root) and number(datagram[24:28]) and len(link) == 4 else None


def place_of_message(root, datagram, found):
    """The address that picks the subnet: the selected link, the relay, the client's own address, or that of the server."""
    link = selected_link(root, datagram, found)
    return link if link is not None else number(datagram[24:28]) or number(datagram[12:16]) or server_address(root)


def subnet_of(root, datagram, found, held):
    """What serves a message: where the first subnet is that admits the client and names its relay, or else contains its place."""
    relay, link = number(datagram[24:28]), selected_link(root, datagram, found)
    place = place_of_message(root, datagram, found)
    admitted = [(subnet, network) for subnet, network in subnets_of(root) if has_classes(classes_of(network, subnet), held)]
    named = [each for each in admitted if relay and link is None and dotted(datagram[24:28]) in relays_of(*each)]
    for subnet, network in named or [each for each in admitted if contains(each[0], place)]:
        return home_of(subnet, network)
    return None


def has_to_keep(subnet, wanted):
    """Whether an address is in a pool of the subnet, for whichever class, or is reserved there."""
    ranges = [pool(entry["pool"]) for entry in subnet.get("pools", [])]
    return any(first <= wanted <= last for first, last in ranges) or wanted in reserved_in(subnet)


def kept_subnet(root, rows, now, datagram, found):
    """Where a client keeps the lease that it renews without a relay, whatever its classes; or None."""
    at = number(datagram[12:16])
    names_server = len(found.get(54, b"")) == 4
    if not is_kea(root) or found[53][0] != REQUEST or names_server or number(datagram[24:28]) or not at:
        return None
    row = rows.at(at)
    if row is None or row.client != identity(root, datagram, found) or row.state != "Bound" or not is_live(row, now):
        return None
    return next((home_of(*each) for each in subnets_of(root) if has_to_keep(each[0], at)), None)


# ---- rows


def row_of(asked, wanted):
    """The row of an address, or None."""
    return asked.rows.at(wanted)


def is_live(row, now):
    return now < row.end


def holds(asked, row):
    """Whether a row belongs to the client and is Offered or Bound."""
    return row is not None and row.client == asked.client and row.state in ("Offered", "Bound")


def holds_live(asked, row):
    return holds(asked, row) and is_live(row, asked.now)


def newest(rows):
    """The row that was changed last, and of several the one with the lowest address; None if there are no rows."""
    return min(rows, key=lambda row: (-row.changed, row.address), default=None)


def changed_row(asked, address_of_row, client, state, seconds):
    return Row(address_of_row, client, state, asked.now, asked.now + seconds)


# ---- which addresses a client may have


def said_of_client(asked):
    """What a message says of its client, by the key of a reservation: in a file of Kea's in its order of the keys."""
    identifier = asked.found.get(61)
    said = {"hw-address": mac(asked.datagram), "client-id": identifier}
    if not is_kea(asked.root):
        return said
    duid = identifier[5:] if identifier and identifier[0] == 255 and len(identifier) > 5 else None
    circuit = relay_options(asked.found).get(1) if giaddr(asked) else None
    said = {"hw-address": said["hw-address"], "duid": duid, "circuit-id": circuit, "client-id": identifier}
    return {key: said[key] for key in asked.root.get("host-reservation-identifiers", said)}


def is_for(asked, entry, keys):
    """Whether a reservation has one of these keys, with what the message says of its client."""
    said = said_of_client(asked)
    return any(key in entry and hexadecimal(entry[key]) == said[key] for key in keys)


def reservation(asked):
    """The subnet's reservation for this client, or None: the first of the subnet, or in a file of Kea's that of the first key.

    In a network it counts only for a client in the classes that guard it."""
    keys = list(said_of_client(asked))
    for kinds in [[key] for key in keys] if is_kea(asked.root) else [keys]:
        for entry in asked.subnet.get("reservations", []):
            if admits(entry, asked.held) and is_for(asked, entry, kinds):
                return entry
    return None


def lasting(asked, wanted):
    """The reservation of an address by which a renewal without a relay keeps it, or None: one for a circuit, whatever its
    classes, or one for this client that requires classes."""
    for entry in asked.subnet.get("reservations", []):
        is_its = is_for(asked, entry, list(said_of_client(asked))) and bool(entry.get("guards"))
        if reserved_by(entry) == [wanted] and ("circuit-id" in entry or is_its):
            return entry
    return None


def counting(asked, wanted):
    """The reservation that counts for a reply with an address: the client's, or the one by which a renewal keeps it; or None."""
    is_alone = is_kea(asked.root) and asked.found[53][0] == REQUEST and len(asked.found.get(54, b"")) != 4 and not giaddr(asked)
    behind = lasting(asked, wanted) if is_alone and ciaddr(asked) == wanted else None
    return reservation(asked) or behind


def knows_clients(root):
    """Whether clients are known by their reservations: one of these gives classes, or KNOWN or UNKNOWN is asked for."""
    asks = [entry.get("test", "") for entry in root.get("client-classes", [])]
    asks += [name for subnet, network in subnets_of(root) for name in classes_of(network, subnet, *subnet.get("pools", []))]
    gives = any(entry.get("client-classes") for subnet, _ in subnets_of(root) for entry in subnet.get("reservations", []))
    return is_kea(root) and (gives or any("KNOWN" in text for text in asks))


def names_by_reservation(asked):
    """The classes that the client's reservation gives it, and whether it has one."""
    entry = counting(asked, ciaddr(asked)) if asked.subnet else None
    return [b"UNKNOWN"] if entry is None else [name.encode() for name in entry.get("client-classes", [])] + [b"KNOWN"]


def reserved_by(entry):
    """The address of a reservation in a list, or none."""
    return [number(address(entry["ip-address"]))] if "ip-address" in entry else []


def reserved(asked):
    """The address of the subnet's reservation for this client, or None."""
    entry = reservation(asked)
    return None if entry is None else next(iter(reserved_by(entry)), None)


def reserved_in(subnet):
    """The addresses of all reservations of a subnet."""
    return [each for entry in subnet.get("reservations", []) for each in reserved_by(entry)]


def all_reserved(root):
    """The addresses of all reservations of all subnets."""
    return [each for subnet, _ in subnets_of(root) for each in reserved_in(subnet)]


def pools(asked):
    """The pools that the client may have addresses of."""
    return [pool(entry["pool"]) for entry in asked.subnet.get("pools", []) if admits(entry, asked.held)]


def fits(asked, wanted):
    """Whether an address is reserved for the client, or is in a pool and not reserved."""
    if wanted == reserved(asked):
        return True
    return any(first <= wanted <= last for first, last in pools(asked)) and wanted not in all_reserved(asked.root)


def lasts(asked, wanted):
    """Whether an address may be renewed: it fits, or it is kept, in a pool for whichever class and not reserved, or by a reservation."""
    ranges = [pool(entry["pool"]) for entry in asked.subnet.get("pools", [])]
    is_in_pool = any(first <= wanted <= last for first, last in ranges) and wanted not in all_reserved(asked.root)
    return fits(asked, wanted) or asked.keeps and (is_in_pool or lasting(asked, wanted) is not None)


def is_free(asked, wanted):
    row = row_of(asked, wanted)
    return row is None or not is_live(row, asked.now) or holds(asked, row)


def is_usable(asked, wanted):
    return fits(asked, wanted) and is_free(asked, wanted)


def awaited(asked, wanted):
    """Another address than this one that is reserved for the client, in a file of Kea's, or None. There is none for a client that
    keeps its lease of an address which may be reserved for it."""
    is_perhaps_its = asked.keeps and lasting(asked, wanted) is not None
    there = reserved(asked) if is_kea(asked.root) and not is_perhaps_its else None
    return None if there == wanted else there


def is_to_move(asked, wanted):
    """Whether there is such an address, and nobody uses it: it has no row, or one that has ended, or an offer to the client."""
    there = awaited(asked, wanted)
    row = None if there is None else row_of(asked, there)
    is_used = row is not None and is_live(row, asked.now) and not (holds(asked, row) and row.state == "Offered")
    return there is not None and not is_used


def choice(asked):
    """The address for a DISCOVER, from the first of six rules that finds one, or None."""
    fixed = reserved(asked)
    if fixed is not None and is_free(asked, fixed):
        return fixed
    fitting = [row for row in asked.rows.of(asked.client) if fits(asked, row.address)]
    live = newest([row for row in fitting if holds_live(asked, row)])
    if live is not None:
        return live.address
    ended = newest([row for row in fitting if not is_live(row, asked.now)])
    if ended is not None:
        return ended.address
    wanted = requested(asked)
    if wanted is not None and is_usable(asked, wanted):
        return wanted
    in_order = asked.rows.in_order(asked)
    for each in in_order:
        if row_of(asked, each) is None:
            return each
    for each in in_order:
        if not is_live(row_of(asked, each), asked.now):
            return each
    return None


# ---- how long a lease lasts, and when its client renews it


def places_of(asked, at):
    """What gives times to a lease of an address, the nearest first: the subnet that has it, its network, the whole server."""
    home = asked.subnet
    return [next(part for part in parts_of(home) if "parts" not in home or contains(part, at)), home.get("network", {}), asked.root]


def nearest(places, key, otherwise):
    """The value of a key in the first of these places that has it."""
    return next((place[key] for place in places if key in place), otherwise)


def lifetimes(places):
    """The least, the usual and the greatest lifetime in these places. Each key is looked for by itself."""
    usual = nearest(places, "valid-lifetime", 7200)
    return nearest(places, "min-valid-lifetime", usual), usual, nearest(places, "max-valid-lifetime", usual)


def lifetimes_of_class(entry):
    """The least, the usual and the greatest lifetime that a class gives, or None: of two that it leaves out, each is the third."""
    least, usual, most = (entry.get(f"{front}valid-lifetime") for front in ("min-", "", "max-"))
    if usual is None:
        usual = most if least is None else least
    return None if usual is None else (usual if least is None else least, usual, usual if most is None else most)


def wish(asked):
    """The lifetime that a client asks for by option 51, or None: four bytes that are not 0."""
    value = asked.found.get(51, b"")
    return number(value) or None if len(value) == 4 else None


def lifetime_of(asked, at):
    """How long a lease of an address lasts: as its client asks for, within the bounds of its first class that gives some."""
    held = [entry for entry in asked.root.get("client-classes", []) if entry["name"].encode() in asked.held]
    of_classes = [each for each in map(lifetimes_of_class, held) if each is not None]
    least, usual, most = (of_classes + [lifetimes(places_of(asked, at))])[0]
    wished = wish(asked)
    return usual if wished is None else min(most, max(least, wished))


def rounded(seconds):
    """The nearest whole number of seconds, and of two the greater one."""
    return int(seconds) + (seconds - int(seconds) >= 0.5)


def timer(places, lifetime, key, share_key, usual_share):
    """T1 or T2 as it is given, or else calculated if that is asked for; or 0."""
    is_calculated = nearest(places, "calculate-tee-times", False)
    share = rounded(nearest(places, share_key, usual_share) * lifetime) if is_calculated else 0
    return nearest(places, key, share)


def timers_sent(places, lifetime):
    """T1 and T2 as Kea sends them, each with None in place of a time that it does not send."""
    rebind = timer(places, lifetime, "rebind-timer", "t2-percent", 0.875)
    rebind = rebind if 0 < rebind < lifetime else None
    renew = timer(places, lifetime, "renew-timer", "t1-percent", 0.5)
    return renew if 0 < renew < (rebind or lifetime) else None, rebind


def timers(asked, at, lifetime):
    """T1 and T2 of a lease."""
    if not is_kea(asked.root):
        return asked.root.get("renew-timer", lifetime // 2), asked.root.get("rebind-timer", lifetime * 7 // 8)
    renew, rebind = timers_sent(places_of(asked, at), lifetime)
    if renew is None:
        renew = min(lifetime // 2, rebind or lifetime)
    return renew, rebind or max(lifetime * 7 // 8, renew)


# ---- each type of message: a plan or the reason for no reply, and the row to set or None


def discover(asked):
    if asked.subnet is None:
        return "5 NoSubnet", None
    offered = choice(asked)
    if offered is None:
        return "6 NoAddress", None
    row = row_of(asked, offered)
    if holds_live(asked, row) and row.state == "Bound":
        return Plan("OFFER", offered), None
    hold = asked.root.get("offer-hold", 60)
    return Plan("OFFER", offered), changed_row(asked, offered, asked.client, "Offered", hold)


def acknowledged(asked, wanted):
    return Plan("ACK", wanted), changed_row(asked, wanted, asked.client, "Bound", lifetime_of(asked, wanted))


def request(asked):
    if names_another_server(asked):
        return "8 OtherServer", given_back(asked)
    return selecting(asked) if 54 in asked.found else renewing(asked)


def given_back(asked):
    """The row to set when a client chooses another server: its newest offer ends."""
    offers = [row for row in asked.rows.of(asked.client) if holds_live(asked, row) and row.state == "Offered"]
    row = newest(offers)
    return row and changed_row(asked, row.address, asked.client, "Released", 0)


def selecting(asked):
    wanted = requested(asked)
    if wanted is None:
        return "7 NoRequested", None
    if asked.subnet is None:
        return "5 NoSubnet", None
    if is_usable(asked, wanted) and not is_to_move(asked, wanted):
        return acknowledged(asked, wanted)
    return Plan("NAK", 0), None


def renewing(asked):
    """A REQUEST without a server identifier: for ciaddr (RENEWING, REBINDING), else for option 50 (INIT-REBOOT)."""
    wanted = ciaddr(asked) or requested(asked)
    if wanted is None:
        return "7 NoRequested", None
    if asked.subnet is None:
        return "5 NoSubnet", None
    parts = parts_of(asked.subnet)
    if not any(contains(part, wanted) for part in parts):
        return Plan("NAK", 0), None
    is_known = any(contains(part, row.address) for row in asked.rows.of(asked.client) for part in parts)
    if not is_known and not asked.root.get("authoritative", False):
        return "9 NoRecord", None
    row = row_of(asked, wanted)
    if row is not None and row.client == asked.client and lasts(asked, wanted) and not is_to_move(asked, wanted):
        return acknowledged(asked, wanted)
    return Plan("NAK", 0), None


def decline(asked):
    if names_another_server(asked):
        return "8 OtherServer", None
    wanted = requested(asked)
    if wanted is None:
        return "7 NoRequested", None
    if not holds_live(asked, row_of(asked, wanted)):
        return "14 NotHeld", None
    return "13 Declined", changed_row(asked, wanted, b"", "Declined", asked.root.get("decline-hold", 86400))


def release(asked):
    if names_another_server(asked):
        return "8 OtherServer", None
    if ciaddr(asked) == 0:
        return "10 NoCiaddr", None
    if not holds_live(asked, row_of(asked, ciaddr(asked))):
        return "14 NotHeld", None
    return "12 Released", changed_row(asked, ciaddr(asked), asked.client, "Released", 0)


def inform(asked):
    if ciaddr(asked) == 0:
        return "10 NoCiaddr", None
    if asked.subnet is None:
        return "5 NoSubnet", None
    return Plan("INFORMED", 0), None


# ---- replies


def room_of(found):
    """The greatest length of a reply in bytes."""
    greatest = number(found[57]) if len(found.get(57, b"")) == 2 else 576
    return min(1472, max(576, greatest) - 28)


def times(asked, at):
    """Options 51, 58 and 59: the lease time, and when to renew and to rebind."""
    lifetime = lifetime_of(asked, at)
    values = [lifetime, *timers(asked, at, lifetime)]
    return b"".join(written(code, value.to_bytes(4, "big")) for code, value in zip((51, 58, 59), values))


def given_by(home, at):
    """What gives options at an address: of a network the subnet that has it, with the network's options after its own."""
    if "parts" not in home:
        return home
    part = ([each for each in home["parts"] if contains(each, at)] + [{"subnet": home["parts"][0]["subnet"]}])[0]
    is_one = any(part is each for each in home["parts"])
    options = part.get("option-data", []) + (home["network"].get("option-data", []) if is_one else [])
    return {"subnet": part["subnet"], "pools": home["pools"], "option-data": options}


def place_of(asked, plan):
    """The address that a reply assigns, or the one that the sender of an INFORM has."""
    return ciaddr(asked) if plan.kind == "INFORMED" else plan.yiaddr


def configured(asked, plan):
    """The configured options for the client, encoded, in the order of their codes."""
    if plan.kind == "NAK":
        return []
    at = place_of(asked, plan)
    values = given(asked.root, given_by(asked.subnet, at), asked.held, at)
    host = counting(asked, at) or {}
    values.update({entry["code"]: hexadecimal(entry["data"]) for entry in host.get("option-data", [])})
    return [written(code, values[code]) for code in sorted(values) if 55 not in asked.found or code in asked.found[55]]


def boot_value(holder, key):
    """What a part of the configuration gives to a boot field, or None: an empty text gives nothing."""
    text = holder.get(key, "")
    return None if text == "" else address(text) if key == "next-server" else text.encode().ljust(BOOT[key], b"\0")


def boots_of_client(asked, key, at):
    """What the client's reservation and its classes in the order of the file give to a boot field. 0.0.0.0 gives nothing."""
    entry = counting(asked, at)
    holders = [] if entry is None else [entry]
    holders += [each for each in asked.root.get("client-classes", []) if each["name"].encode() in asked.held]
    values = [boot_value(each, key) for each in holders]
    return [None if key == "next-server" and value == bytes(4) else value for value in values]


def boots_of_place(asked, key, at):
    """What the subnet that has an address, its network and the whole server give to a boot field. 0.0.0.0 hides those behind it.

    For an address in no subnet of a network, as an INFORM may have, they give nothing."""
    home = asked.subnet
    part = next((each for each in parts_of(home) if "parts" not in home or contains(each, at)), None)
    holders = [] if part is None else [part, home.get("network", {}), asked.root]
    return [boot_value(each, key) for each in holders]


def boot_field(asked, plan, key):
    """A field of a reply by which its client boots: the first value that is given, or else zeros."""
    is_given = plan.kind != "NAK"
    at = place_of(asked, plan)
    values = boots_of_client(asked, key, at) + boots_of_place(asked, key, at) if is_given else []
    return next((value for value in values if value is not None), bytes(BOOT[key]))


def options_of(asked, plan):
    """The options field of a reply up to its end, or None if the required options do not fit."""
    found = asked.found
    kind = {"OFFER": b"\x02", "ACK": b"\x05", "INFORMED": b"\x05", "NAK": b"\x06"}[plan.kind]
    front = written(53, kind) + written(54, server_identifier(asked).to_bytes(4, "big"))
    if plan.kind in ("OFFER", "ACK"):
        front += times(asked, plan.yiaddr)
    if 61 in found:
        front += written(61, found[61])
    back = written(82, found[82]) if 82 in found else b""
    left = room_of(found) - 240 - len(front) - len(back) - 1
    if left < 0:
        return None
    for option in configured(asked, plan):
        if len(option) <= left:
            front += option
            left -= len(option)
    return front + back + b"\xff"


def header_of(asked, plan):
    datagram = asked.datagram
    flags = number(datagram[10:12])
    if plan.kind == "NAK" and giaddr(asked) != 0:
        flags |= 0x8000
    kept = datagram[12:16] if plan.kind in ("ACK", "INFORMED") else bytes(4)
    start = b"\x02" + datagram[1:3] + b"\x00" + datagram[4:8] + bytes(2) + flags.to_bytes(2, "big")
    siaddr, sname, file = (boot_field(asked, plan, key) for key in BOOT)
    addresses = kept + plan.yiaddr.to_bytes(4, "big") + siaddr + datagram[24:28]
    return start + addresses + datagram[28:44] + sname + file + COOKIE


def destination(asked, plan):
    """The destination of a reply, from the fields of the message."""
    if giaddr(asked) != 0:
        return f"relay {dotted(asked.datagram[24:28])}:67"
    if plan.kind == "NAK":
        return "broadcast 255.255.255.255:68"
    if ciaddr(asked) != 0:
        return f"unicast {dotted(asked.datagram[12:16])}:68"
    if asked.datagram[10] >= 0x80:
        return "broadcast 255.255.255.255:68"
    return f"hardware {dotted(plan.yiaddr.to_bytes(4, 'big'))}:68"


def replied(asked, plan):
    """The words after the time in the line of a reply, or None if the reply does not fit."""
    options = options_of(asked, plan)
    if options is None:
        return None
    text = (header_of(asked, plan) + options).ljust(300, b"\0")
    return f"reply {destination(asked, plan)} {text.hex()}"


# ---- events


def moment_of(rows, moment):
    """The time of an event: not before the latest change."""
    return max(moment, rows.latest())


def judge(asked):
    """The words after the time in the line of an event, and the row to set or None."""
    kind = asked.found[53][0]
    by_kind = {DISCOVER: discover, REQUEST: request, DECLINE: decline, RELEASE: release}
    outcome, row = by_kind.get(kind, inform)(asked)
    if not isinstance(outcome, Plan):
        return f"quiet {outcome}", row
    reply = replied(asked, outcome)
    return ("quiet 11 ReplyTooLong", None) if reply is None else (reply, row)


def asked_of(root, rows, moment, datagram):
    """A message with all that is needed to decide its reply, or else the words after the time in the line of its event."""
    now = moment_of(rows, moment)
    found = readable(datagram)
    reason = unheard(datagram, found)
    if reason is not None:
        return reason
    kept = kept_subnet(root, rows, now, datagram, found)
    client = identity(root, datagram, found)

    def by_names(held):
        subnet = kept or subnet_of(root, datagram, found, held)
        return Asked(root, rows, now, datagram, found, held, subnet, kept is not None, client)

    asked = by_names(classes(root, {}, datagram, found))
    if knows_clients(root):
        asked = by_names(classes(root, {}, datagram, found, names_by_reservation(asked)))
    return "quiet 4 DropClass" if b"DROP" in asked.held else asked


def handle(root, rows, moment, datagram):
    """The line of an event, and the rows after it."""
    asked = asked_of(root, rows, moment, datagram)
    words, row = judge(asked) if isinstance(asked, Asked) else (asked, None)
    return f"{moment_of(rows, moment)} {words}", rows if row is None else rows.with_row(row)


def event_of(line):
    """The time and the datagram of a line, or None if the line is malformed."""
    parts = re.fullmatch("([0-9]{1,20}) ((?:[0-9a-fA-F]{2})*)", line)
    if parts is None or int(parts.group(1)) >= END_OF_NUMBERS or len(line) > LONGEST_LINE:
        return None
    return int(parts.group(1)), bytes.fromhex(parts.group(2))


def replay(root, lines, rows=()):
    """The output for the lines up to the first fault, the rows after them, and the line of the fault or None."""
    rows, out = Rows(rows), []
    for count, line in enumerate(lines, 1):
        event = event_of(line)
        if event is None:
            return out, rows, f"fault 97 BadLine {count}"
        if event[0] >= END_OF_TIME:
            return out, rows, "fault 96 Serve MomentTooLarge"
        text, rows = handle(root, rows, *event)
        out.append(text)
    return out, rows, None


def lease_lines(rows, moment):
    now = moment_of(rows, moment)
    out = []
    for row in sorted(rows):
        front = f"{dotted(row.address.to_bytes(4, 'big'))} {row.state} {row.client.hex() or '-'}"
        out.append(f"{front} changed {row.changed} ends {row.end} {'live' if is_live(row, now) else 'past'}")
    return out


def configuration(path):
    if path is None:
        return BUILT_IN
    with open(path, encoding="utf-8") as file:
        return json.load(file)["Dhcp4"]


def main():
    words = argparse.ArgumentParser()
    words.add_argument("--config")
    words.add_argument("--leases", type=int)
    words = words.parse_args()
    with open(sys.stdin.fileno(), newline="\n", encoding="latin-1") as events:
        lines = events.read().split("\n")
    out, rows, fault = replay(configuration(words.config), lines[:-1] if lines[-1] == "" else lines)
    if words.leases is not None and fault is None:
        out += lease_lines(rows, words.leases)
    sys.stdout.writelines(f"{line}\n" for line in out)
    if fault is not None:
        print(fault, file=sys.stderr)
        sys.exit(3)


if __name__ == "__main__":
    main()
