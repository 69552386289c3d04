#!/usr/bin/env python3
"""Converts a configuration of Kea's DHCPv4 server to one for kdhcp; docs/FROM_KEA.md lists what is supported.

    from_kea.py [--server-address A] FILE > config.json

Each key that is left out is a line on standard error: `aside PATH: why` if no client notices, `dropped PATH: why` if one
may. The exit status is 0 if nothing was dropped, 1 if something was, and 2 if there is no configuration.
"""
import argparse
import json
import re
import sys
from ipaddress import IPv4Address, IPv4Network
from typing import Any, Optional

from kea.notes import Notes
from kea.options import defined, octets, standard, written
from kea.tests import test_of

# What JSON does not allow: comments, and numbers that begin with a point.
LOOSE = re.compile(r'("(?:[^"\\\n]|\\.)*")|//[^\n]*|#[^\n]*|/\*.*?\*/|(?<![\w.])(\.)(?=\d)', re.S)
OWN_CODES = {50, 51, 52, 53, 54, 55, 57, 58, 59, 61, 82}
LONGEST = 2147483647
# What malformed texts, numbers and addresses raise.
MISTAKES = (AttributeError, KeyError, OverflowError, TypeError, ValueError)


def strict(text: str) -> str:
    """The JSON of a text with comments."""
    return LOOSE.sub(lambda match: match.group(1) or ("0." if match.group(2) else " "), text)


def span(text: str) -> tuple:
    """The first and the last address of a pool."""
    if "-" in text:
        first, last = (int(IPv4Address(part.strip())) for part in text.split("-"))
        return first, last
    network = IPv4Network(text.replace(" ", ""), strict=False)
    return int(network[0]), int(network[-1])


class Reader(Notes):
    """Reads the objects of a configuration, and reports what is left out."""

    def __init__(self) -> None:
        self.named = standard()
        self.classes = {"ALL"}
        self.spans: list = []
        self.reserved: set = set()
        self.server = IPv4Address(0)
        self.times: dict = {}

    # ---- options

    def options(self, holder: dict, path: str) -> dict:
        seen: set = set()
        return self.listed(holder, "option-data", path, 64, lambda entry, at: self.option(entry, at, seen))

    def option(self, entry: dict, path: str, seen: set) -> list:
        code = entry.get("code", self.code_of(entry))
        kind = {kind.code: kind for kind in self.named.values()}.get(code)
        has_text = entry.get("csv-format", kind is not None)
        try:
            if entry.get("space", "dhcp4") != "dhcp4":
                raise ValueError(f"an option of the space {entry['space']}")
            if code is None:
                raise ValueError(f"no option is named {entry.get('name')}")
            if code in OWN_CODES or not 1 <= code <= 254:
                raise ValueError("the server makes this option itself" if code in OWN_CODES else "not an option code")
            if code in seen:
                raise ValueError(f"a second option {code}")
            if has_text and (kind is None or kind.types == ("empty",)):
                raise ValueError("its value consists of other options, or its type is unknown")
            value = written(kind, str(entry.get("data", ""))) if has_text else octets(entry.get("data", ""))
            if len(value) > 1024:
                raise ValueError("more than 1,024 bytes")
        except MISTAKES as fault:
            self.drop(path, str(fault))
            return []
        seen.add(code)
        self.rest(entry, path, "name code data csv-format space")
        return [{"code": code, "data": value.hex(":"), "csv-format": False}]

    def definitions(self, root: dict) -> None:
        """Takes over the types of options that `option-def` defines in the space dhcp4."""
        for at, entry in enumerate(root.get("option-def", [])):
            if entry.get("space", "dhcp4") == "dhcp4":
                self.named[entry["name"]] = defined(entry)
                self.set_aside(f"/Dhcp4/option-def/{at}", "its type is used for option-data")
            else:
                self.drop(f"/Dhcp4/option-def/{at}", f"an option of the space {entry['space']}")

    # ---- classes

    def client_class(self, entry: dict, path: str) -> list:
        name = entry.get("name", "")
        if not 1 <= len(name.encode()) <= 255 or name in self.classes:
            self.drop(path, "its name is missing, too long, or used before")
            return []
        found = {"name": name}
        try:
            if entry.get("only-if-required"):
                raise ValueError("it is evaluated only if required")
            if entry.get("test", "") != "":
                found["test"] = test_of(entry["test"], self.classes, self.named)
        except ValueError as fault:
            self.drop(f"{path}/test", f"{fault}; nobody is in the class")
        self.classes.add(name)
        found.update(self.options(entry, path))
        self.rest(entry, path, "name test option-data only-if-required")
        return [found]

    # ---- subnets

    def subnet(self, entry: dict, path: str) -> list:
        try:
            network = IPv4Network(entry["subnet"].replace(" ", ""), strict=False)
        except MISTAKES as fault:
            self.drop(path, f"not a prefix: {fault}")
            return []
        found: dict = {"id": entry["id"]} if 1 <= entry.get("id", 0) <= 4294967294 else {}
        found["subnet"] = str(network)
        if entry.get("client-class"):
            found["client-class"] = entry["client-class"]
            if not found["client-class"].startswith("VENDOR_CLASS_") and found["client-class"] not in self.classes:
                self.drop(f"{path}/client-class", "nobody is in this class, so the subnet serves nobody")
        found.update(self.listed(entry, "pools", path, 64, lambda each, at: self.pool(each, at, network)))
        clients: set = set()
        reserve = lambda each, at: self.reservation(each, at, network, clients)  # noqa: E731
        found.update(self.listed(entry, "reservations", path, 4096, reserve))
        found.update(self.options(entry, path))
        if entry.get("interface") and self.server in network:
            self.set_aside(f"{path}/interface", "the server's own address is in this subnet")
        elif entry.get("interface"):
            self.drop(f"{path}/interface", "a subnet is found by address: by giaddr, ciaddr, else the server's own")
        self.rest(entry, path, "id subnet client-class interface pools reservations option-data", self.times)
        return [found]

    def pool(self, entry: dict, path: str, network: IPv4Network) -> list:
        try:
            first, last = span(entry["pool"])
            if not int(network[0]) <= first <= last <= int(network[-1]):
                raise ValueError("not in the subnet's prefix")
            if any(first <= end and start <= last for start, end in self.spans):
                raise ValueError("it overlaps an earlier pool")
            if entry.get("client-class"):
                raise ValueError("a pool for a class")
        except MISTAKES as fault:
            self.drop(path, str(fault))
            return []
        self.spans.append((first, last))
        given = self.options(entry, path)
        self.rest(entry, path, "pool option-data client-class")
        pieces = [(start, min(start + 65535, last)) for start in range(first, last + 1, 65536)]
        return [{"pool": f"{IPv4Address(start)} - {IPv4Address(end)}", **given} for start, end in pieces]

    def reservation(self, entry: dict, path: str, network: IPv4Network, clients: set) -> list:
        key, most = ("hw-address", 16) if "hw-address" in entry else ("client-id", 255)
        try:
            if key not in entry or not entry.get("ip-address"):
                raise ValueError("it has no address, or neither hw-address nor client-id")
            address, client = IPv4Address(entry["ip-address"]), octets(entry[key])
            if address not in network or address in self.reserved or (key, client) in clients:
                raise ValueError("its address is outside the prefix, or the address or the client has a reservation already")
            if not 1 <= len(client) <= most:
                raise ValueError(f"{key} must have 1 to {most} bytes")
        except MISTAKES as fault:
            self.drop(path, str(fault))
            return []
        self.reserved.add(address)
        clients.add((key, client))
        self.rest(entry, path, f"{key} ip-address")
        return [{key: client.hex(":"), "ip-address": str(address)}]

    # ---- the whole

    def times_of(self, root: dict) -> dict:
        lifetime = self.number(root, "valid-lifetime", "/Dhcp4", LONGEST)
        found = {} if lifetime is None else {"valid-lifetime": lifetime}
        lifetime = lifetime or 7200
        if root.get("calculate-tee-times"):
            timers = {"renew-timer": int(lifetime * root.get("t1-percent", 0.5))}
            timers["rebind-timer"] = int(lifetime * root.get("t2-percent", 0.875))
        else:
            timers = {}
        timers.update({key: root[key] for key in ("renew-timer", "rebind-timer") if key in root})
        if 0 <= timers.get("renew-timer", lifetime // 2) <= timers.get("rebind-timer", lifetime * 7 // 8) <= lifetime:
            found.update(timers)
        else:
            self.drop("/Dhcp4/rebind-timer", "not renew-timer <= rebind-timer <= valid-lifetime: half and 7/8")
        hold = self.number(root, "decline-probation-period", "/Dhcp4", 31536000)
        return found if hold is None else {**found, "decline-hold": hold}

    def code_of(self, entry: dict) -> Optional[int]:
        """The code of an option by its name, or None if the name is unknown."""
        kind = self.named.get(entry.get("name", ""))
        return kind and kind.code

    def server_of(self, root: dict, given: Optional[str]) -> IPv4Address:
        """The server's address: the given one, else the global option 54, else that of an interface."""
        options = root.get("option-data", [])
        found = [given] if given else []
        found += [each["data"] for each in options if 54 == each.get("code", self.code_of(each))]
        interfaces = root.get("interfaces-config", {}).get("interfaces", [])
        found += [each.split("/")[1] for each in interfaces if "/" in each]
        if not found:
            raise ValueError("no address of the server: give --server-address")
        return IPv4Address(found[0].strip())

    def configuration(self, whole: dict, given: Optional[str]) -> dict:
        root = whole["Dhcp4"]
        self.rest(whole, "", "Dhcp4")
        self.server = self.server_of(root, given)
        self.times = self.times_of(root)
        found: dict = {"server-address": str(self.server), **self.times}
        self.definitions(root)
        found.update(self.options(root, "/Dhcp4"))
        found.update(self.listed(root, "client-classes", "/Dhcp4", 256, self.client_class))
        found.update(self.listed(root, "subnet4", "/Dhcp4", 256, self.subnet))
        self.rest(
            root,
            "/Dhcp4",
            "valid-lifetime renew-timer rebind-timer calculate-tee-times t1-percent t2-percent decline-probation-period"
            " option-data option-def client-classes subnet4",
        )
        return {"Dhcp4": found}


def main() -> None:
    words = argparse.ArgumentParser(description=__doc__, formatter_class=argparse.RawDescriptionHelpFormatter)
    words.add_argument("--server-address", metavar="A", help="the server's address, which Kea takes from its links")
    words.add_argument("file", help="Kea's configuration")
    given = words.parse_args()
    try:
        with open(given.file, encoding="utf-8") as file:
            whole: Any = json.loads(strict(file.read()))
        reader = Reader()
        found = reader.configuration(whole, given.server_address)
    except (OSError, *MISTAKES) as fault:
        print(f"from_kea.py: {given.file}: {type(fault).__name__}: {fault}", file=sys.stderr)
        sys.exit(2)
    print(json.dumps(found, indent=2, ensure_ascii=False))
    sys.exit(1 if reader.has_dropped else 0)


if __name__ == "__main__":
    main()
