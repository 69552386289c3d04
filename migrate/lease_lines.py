"""The lines that `kdhcp import` reads, and what the converters in this folder share."""
import ipaddress
import sys

# The longest lease that a store holds, in seconds, and the first time that it cannot hold.
LONGEST, END_OF_TIME = 2**31 - 1, 2**40


class Leases:
    """Leases by address; the later of two with the same address counts. `dropped` counts those reported on standard error."""

    def __init__(self):
        self.lines, self.dropped = {}, 0

    def drop(self, what, why):
        self.dropped += 1
        print(f"dropped {what}: {why}", file=sys.stderr)

    def forget(self, address):
        self.lines.pop(number(address), None)

    def add(self, address, state, client, changed, ends):
        """Adds a lease: its address and state, the identity of its client from `hardware` or `identifier`, when it was set
        and when it ends, in seconds since 1970."""
        if not 0 <= changed < END_OF_TIME:
            self.drop(address, f"its time {changed} is out of range")
            return
        if ends - changed > LONGEST:
            print(f"shortened {address}: a lease lasts at most {LONGEST} seconds", file=sys.stderr)
        ends = min(max(ends, changed), changed + LONGEST)
        self.lines[number(address)] = f"{address} {state} {client or '-'} changed {changed} ends {ends} live"

    def show(self):
        for address in sorted(self.lines):
            print(self.lines[address])
        print(f"{len(self.lines)} leases, {self.dropped} dropped", file=sys.stderr)


def number(address):
    return int(ipaddress.IPv4Address(address))


def hardware(kind, text):
    """The identity of a client by its hardware: the hardware type (1 is Ethernet) and `02:00:5e:..`."""
    return f"00{kind:02x}" + "".join(f"{int(part, 16):02x}" for part in text.split(":"))


def identifier(data):
    """The identity of a client by its client identifier (option 61)."""
    return "01" + data.hex()
