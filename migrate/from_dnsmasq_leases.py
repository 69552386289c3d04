#!/usr/bin/env python3
"""Converts leases of dnsmasq to lines for `kdhcp import`: from_dnsmasq_leases.py FILE

FILE is `dnsmasq.leases`. Each line has the end of a lease, the hardware address, the IP address, a name, and the client
identifier or `*`. The file does not say when a lease began, so the begin is the current time, or the end of the lease if
that has passed. A line that a store cannot hold is dropped, with a line on standard error.
"""
import sys
import time

from lease_lines import LONGEST, Leases, hardware, identifier


def client_of(link, name):
    if name != "*":
        return identifier(bytes.fromhex(name.replace(":", "")))
    # `06-..` is the address of a link that is not Ethernet.
    kind, dash, rest = link.partition("-")
    return hardware(int(kind, 16), rest) if dash else hardware(1, link)


def main():
    if len(sys.argv) != 2 or sys.argv[1] in ("-h", "--help"):
        sys.exit(__doc__)
    leases, now = Leases(), int(time.time())
    with open(sys.argv[1], encoding="utf-8") as file:
        for line in file:
            parts = line.split()
            if len(parts) != 5 or ":" in parts[2]:
                leases.drop(f"'{line.strip()}'", "it is not a lease of an IPv4 address")
                continue
            try:
                ends = int(parts[0]) or now + LONGEST
                leases.add(parts[2], "Bound", client_of(parts[1], parts[4]), min(now, ends), ends)
            except ValueError as fault:
                leases.drop(f"'{line.strip()}'", f"it is malformed ({fault})")
    leases.show()


if __name__ == "__main__":
    main()
