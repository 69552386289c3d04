#!/usr/bin/env python3
"""Converts leases of ISC's DHCP server to lines for `kdhcp import`: from_dhcpd_leases.py FILE

FILE is `dhcpd.leases`. The last entry of an address counts. An entry that a store cannot hold is dropped, with a line on
standard error.
"""
import calendar
import re
import sys
import time

from lease_lines import LONGEST, Leases, hardware, identifier

# An entry, and the hardware types by name.
ENTRY = re.compile(r"^lease ([0-9.]+) \{\n(.*?)^\}", re.MULTILINE | re.DOTALL)
KINDS = {"ethernet": 1, "token-ring": 6, "fddi": 8, "infiniband": 32}


def word(text, name):
    """The text after a name, up to the semicolon, or None."""
    found = re.search(rf"^\s*{name} (.*);\s*(?:#.*)?$", text, re.MULTILINE)
    return found and found[1]


def moment(text):
    """The time of `4 2026/11/26 15:00:00` (UTC) or `epoch 1764169200`; None for `never`."""
    if text is None or text == "never":
        return None
    parts = text.split()
    if parts[0] == "epoch":
        return int(parts[1])
    return calendar.timegm(time.strptime(" ".join(parts[1:3]), "%Y/%m/%d %H:%M:%S"))


def uid(text):
    """The bytes of `"\\001\\002a"` or of `1:2:61`."""
    if not text.startswith('"'):
        return bytes(int(part, 16) for part in text.split(":"))
    spelled = re.findall(r"\\([0-7]{1,3})|\\(.)|([^\\])", text[1:-1])
    return bytes(int(octal, 8) if octal else ord(quoted or plain) for octal, quoted, plain in spelled)


def client_of(text):
    name, link = word(text, "uid"), word(text, "hardware")
    if name:
        return identifier(uid(name))
    if link and link.split()[0] in KINDS:
        return hardware(KINDS[link.split()[0]], link.split()[1])
    return None


def read(leases, address, text):
    state, begun, ends = word(text, "binding state"), moment(word(text, "starts")), moment(word(text, "ends"))
    if begun is None:
        leases.drop(address, "it has no start time")
        return
    ends = begun + LONGEST if ends is None else ends
    client = client_of(text)
    if state == "abandoned":
        leases.add(address, "Declined", "", begun, ends)
    elif client is None:
        leases.forget(address)
        leases.drop(address, "it has neither a client identifier nor a hardware address")
    elif state in (None, "active"):
        leases.add(address, "Bound", client, begun, ends)
    elif state in ("free", "expired", "released", "reset"):
        # Not later than now, because the time of a server is never before the latest change of its store.
        given_back = min(ends, int(time.time()))
        leases.add(address, "Released", client, given_back, given_back)
    else:
        leases.forget(address)
        leases.drop(address, f"it is in the state {state}")


def main():
    if len(sys.argv) != 2 or sys.argv[1] in ("-h", "--help"):
        sys.exit(__doc__)
    leases = Leases()
    with open(sys.argv[1], encoding="latin-1") as file:
        for address, text in ENTRY.findall(file.read()):
            try:
                read(leases, address, text)
            except (IndexError, ValueError) as fault:
                leases.drop(address, f"its entry is malformed ({fault})")
    leases.show()


if __name__ == "__main__":
    main()
