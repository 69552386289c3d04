#!/usr/bin/env python3
"""Writes the lines that the server must print for the examples with leases: replies.lines, and the table at the end,
leases.lines.

    examples.py     for each folder of cases/examples that has leases.lines and config.json

If there is a file kea-replies.lines, it has the lines for the same configuration in Kea's form.

The time of the table is that of the last event. answers.py writes the examples without leases.
"""
import glob
import os

import judge


def written(path, lines):
    with open(path, "w", encoding="ascii") as file:
        file.writelines(f"{line}\n" for line in lines)


def main():
    for path in sorted(glob.glob(f"{judge.HERE}/../cases/examples/*/leases.lines")):
        folder = os.path.dirname(path)
        with open(f"{folder}/events.lines", encoding="ascii") as file:
            events = file.read().splitlines()
        if not os.path.exists(f"{folder}/config.json"):
            continue
        root = judge.configuration(f"{folder}/config.json")
        out, rows, fault = judge.replay(root, events)
        assert fault is None, fault
        written(f"{folder}/replies.lines", out)
        written(path, judge.lease_lines(rows, judge.event_of(events[-1])[0]))
        if os.path.exists(f"{folder}/kea-replies.lines"):
            written(f"{folder}/kea-replies.lines", judge.replay({**root, "shared-networks": []}, events)[0])


if __name__ == "__main__":
    main()
