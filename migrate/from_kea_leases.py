#!/usr/bin/env python3
"""Converts leases of Kea's DHCPv4 server to lines for `kdhcp import`: from_kea_leases.py [--allow-empty] FILE.csv

FILE is Kea's lease file (memfile), `kea-leases4.csv`. Stop Kea first. Kea keeps most leases in files beside it: after a cleanup
in `kea-leases4.csv.2`, during one in `.1` too, or in `.completed`. The script reads those that Kea would read at a start, in
Kea's order; the last line of an address counts. It says on standard error how many lines each file has. A line that a store
cannot hold is dropped, with a line on standard error. If no lease is left, the exit status is 1, unless --allow-empty is given.
"""
import csv
import os
import sys

from lease_lines import Leases, hardware, identifier

# Kea's numbers for states.
ASSIGNED, DECLINED, RECLAIMED, RELEASED = 0, 1, 2, 3


def read(leases, row):
    address, state = row["address"], int(row["state"] or 0)
    leases.unnamed.discard(address)
    lifetime, ends = int(row["valid_lifetime"]), int(row["expire"])
    if state == DECLINED:
        leases.add(address, "Declined", "", ends - lifetime, ends)
        return
    if row.get("client_id"):
        client = identifier(bytes.fromhex(row["client_id"].replace(":", "")))
    elif row.get("hwaddr"):
        client = hardware(1, row["hwaddr"])
        leases.unnamed.add(address)
    else:
        leases.forget(address)
        leases.drop(address, "it has neither a client identifier nor a hardware address")
        return
    if state == RELEASED or lifetime == 0:
        leases.add(address, "Released", client, ends, ends)
    elif state in (ASSIGNED, RECLAIMED):
        leases.add(address, "Bound", client, ends - lifetime, ends)
    else:
        leases.drop(address, f"its state {state} is unknown")


def files_of(name):
    """The files that Kea reads at a start, in its order: those that a cleanup left beside the lease file, and that file."""
    parts = [f"{name}.completed"] if os.path.exists(f"{name}.completed") else [f"{name}.2", f"{name}.1"]
    return [it for it in parts if os.path.exists(it)] + [name]


def read_file(leases, name):
    """Reads a lease file. Returns how many lines it has."""
    count = 0
    with open(name, encoding="utf-8", newline="") as file:
        for row in csv.DictReader(file):
            count += 1
            try:
                read(leases, row)
            except (KeyError, TypeError, ValueError) as fault:
                leases.drop(f"a line of {name}", f"it is malformed ({fault})")
    print(f"{name}: {count} lines", file=sys.stderr)
    return count


def main():
    names = [it for it in sys.argv[1:] if it != "--allow-empty"]
    if not names or names[0] in ("-h", "--help"):
        sys.exit(__doc__)
    # Somebody may name the other files too: each is read once, and the lease file of Kea last.
    files = list(dict.fromkeys(file for name in names for file in ([name] if is_part(name) else files_of(name))))
    leases = Leases()
    # The addresses of leases without a client identifier.
    leases.unnamed = set()
    for file in files:
        read_file(leases, file)
    leases.show()
    if leases.unnamed:
        print(f"{len(leases.unnamed)} leases have no client identifier: the client sent none, or Kea ignores them (match-client-id "
              "false); a client that sends one is a new client here, and gets another address", file=sys.stderr)
    if not leases.lines and "--allow-empty" not in sys.argv:
        sys.exit(f"{' '.join(files)}: no lease; is this the file that Kea used? With --allow-empty this is no mistake")


def is_part(name):
    """Whether a file is one that a cleanup leaves beside the lease file."""
    return os.path.splitext(name)[1] in (".1", ".2", ".completed")


if __name__ == "__main__":
    main()
