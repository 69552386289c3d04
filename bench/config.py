#!/usr/bin/env python3
"""Prints a large configuration for measurements, of about MIB MiB: config.py MIB.

It has 256 subnets of up to 64 pools each and 256 classes. Reservations, spread over the subnets, fill the rest: 191,790 at
16 MiB. The counts go to standard error.
"""
import json
import sys


def address(number):
    return ".".join(str(number >> shift & 255) for shift in (24, 16, 8, 0))


def main():
    wanted = int(sys.argv[1]) * 2**20
    scale = min(1.0, int(sys.argv[1]) / 16)
    pools = max(1, int(64 * scale))
    subnets = []
    for i in range(256):
        base = (10 << 24) + (i << 16)
        subnets.append({
            "id": i + 1,
            "subnet": f"{address(base)}/16",
            "pools": [{"pool": f"{address(base + 32768 + 512 * j)} - {address(base + 32768 + 512 * j + 511)}"} for j in range(pools)],
            "reservations": [],
        })
    classes = [{"name": "c0", "test": "option[60].hex == 'c0'"}]
    classes += [{"name": f"c{i}", "test": f"member('c{i - 1}') and substring(option[60].hex, 0, 4) == 'c{i}'"} for i in range(1, 256)]
    root = {"server-address": "10.0.0.1", "client-classes": classes, "subnet4": subnets}
    size = len(json.dumps({"Dhcp4": root}))
    count = 0
    while size + 100 < wanted and count < 256 * 4096:
        i, j = count % 256, count // 256
        entry = {"hw-address": f"02:00:{i:02x}:{j >> 16 & 255:02x}:{j >> 8 & 255:02x}:{j & 255:02x}", "ip-address": address((10 << 24) + (i << 16) + 16 + j)}
        if count % 2:
            entry = {"client-id": f"01:02:00:{i:02x}:{j >> 16 & 255:02x}:{j >> 8 & 255:02x}:{j & 255:02x}:{'ab' * 16}", "ip-address": entry["ip-address"]}
        subnets[i]["reservations"].append(entry)
        size += len(json.dumps(entry)) + 2
        count += 1
    json.dump({"Dhcp4": root}, sys.stdout)
    print(f"{count} reservations, {256 * pools} pools, {size} bytes", file=sys.stderr)


main()
