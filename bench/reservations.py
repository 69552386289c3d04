#!/usr/bin/env python3
"""Measures a DISCOVER of a client whose reservations do not count, beside one of a client without reservations.

    reservations.py [--program P]

P is the program, by default crates/kdhcp/out/kdhcp. `replay --kea` handles DISCOVERs in a shared network of 64 subnets. All
but the first require a class that no client is in, and have a reservation for the client, among others. It prints a Markdown
table: the reservations of the network, the instructions of a DISCOVER (callgrind) of each client, their ratio, and the
microseconds of processor time (best of five runs). What the same run takes without these messages is subtracted. It needs
valgrind.
"""
import argparse
import json
import os
import tempfile

import networks

NAMED, OTHER = 1, 2


def hardware(client):
    return ":".join(f"{byte:02x}" for byte in b"\x02" + client.to_bytes(5, "big"))


def subnet(number, reservations):
    """A subnet that requires a class, if it is not the first, with reservations of which one is for the client."""
    prefix = {"id": number, "subnet": f"10.{number}.0.0/16"}
    if number == 1:
        return {**prefix, "pools": [{"pool": "10.1.0.10 - 10.1.255.250"}]}
    clients = [NAMED, *range(1_000_000 * number, 1_000_000 * number + reservations - 1)]
    entries = [{"hw-address": hardware(client), "ip-address": f"10.{number}.{1 + at // 250}.{1 + at % 250}"} for at, client in enumerate(clients)]
    return {**prefix, "client-class": "NOBODY", "reservations": entries}


def configuration(reservations):
    subnets = [subnet(number, reservations) for number in range(1, networks.SUBNETS + 1)]
    link = {"name": "link", "relay": {"ip-addresses": [networks.dotted(networks.RELAY)]}, "subnet4": subnets}
    nobody = {"name": "NOBODY", "test": "option[60].hex == 'nobody'"}
    return {"Dhcp4": {"valid-lifetime": 3600, "client-classes": [nobody], "shared-networks": [link]}}


class Runs(networks.Runs):
    """Runs of `replay` over such a network, with DISCOVERs of one client."""

    def __init__(self, program, folder, reservations):
        super().__init__(program, folder, 1, False)
        with open(f"{folder}/kea.json", "w", encoding="utf-8") as file:
            json.dump(configuration(reservations), file)

    def write(self, kind, count):
        line = networks.message(networks.DISCOVER, kind)
        with open(self.lines, "w", encoding="ascii") as file:
            file.write("".join(f"{1000 + at} {line}\n" for at in range(count)))


def main():
    words = argparse.ArgumentParser(description=__doc__, formatter_class=argparse.RawDescriptionHelpFormatter)
    words.add_argument("--program", default=f"{networks.TOP}/crates/kdhcp/out/kdhcp")
    program = os.path.abspath(words.parse_args().program)
    print("| Reservations | Of the client with 63 | Of another client | Ratio | us | us |\n|---|---|---|---|---|---|", flush=True)
    with tempfile.TemporaryDirectory() as folder:
        for each in (65, 1500):
            runs = Runs(program, folder, each)
            (named, longer), (other, shorter) = runs.of_message(NAMED), runs.of_message(OTHER)
            print(f"| {63 * each:,} | {named:,.0f} | {other:,.0f} | {named / other:.2f} | {longer:.1f} | {shorter:.1f} |", flush=True)


if __name__ == "__main__":
    main()
