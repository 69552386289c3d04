#!/usr/bin/env python3
"""Measures servers in turn on loopback, in a network namespace; called by serve.sh.

    serve.py ROOM KDHCP PICTURE            kdhcp and Kea at several numbers of leases and of class tests
    serve.py ROOM KDHCP million            kdhcp and Kea, one round with 1,000,000 leases
    serve.py ROOM KDHCP durable            the servers that sync a lease before they answer: kdhcp with a store, and coredhcp
    serve.py ROOM KDHCP batches PICTURE    servers with several numbers of clients at a time"""
import json
import os
import socket
import statistics
import subprocess
import sys
import time

SERVER, RELAY, OTHER_RELAY, POOL = "10.0.0.1", "10.0.0.2", "10.0.0.3", "10.1.0.0-10.17.255.255"
LEVELS = [0, 1_000, 60_000, 250_000]
TESTS = [0, 50, 250]
ROUNDS, MEASURED = 3, 5_000
BESIDE_KEA, DURABLE = ["kea", "kea3", "memory", "file"], ["file", "coredhcp"]
WINDOWS, BATCHED = [1, 4, 8, 16, 32, 64], ["file", "alone", "coredhcp", "kea", "memory"]
RENEWED, HARMED, FLOOD = 60_000, 200, 5_000
SO_RCVBUFFORCE = 33
NAMES = {"kea": "Kea, one thread", "kea3": "Kea, three threads", "memory": "kdhcp, memory", "file": "kdhcp, file"}
NAMES["coredhcp"] = "coredhcp"
NAMES["alone"] = "kdhcp, file, a commit each"


def tests_of(count):
    """Class tests. A measured client passes only the last one."""
    return [{"name": f"c{i}", "test": f"option[60].hex == 'class-{i}'"} for i in range(count)]


def pools():
    """The addresses of `POOL`, as pools of 65,536 addresses."""
    return [{"pool": f"10.{i}.0.0 - 10.{i}.255.255"} for i in range(1, 18)]


def kea_words(room, threads, tests):
    config = {
        "interfaces-config": {"interfaces": [f"lo/{SERVER}"], "dhcp-socket-type": "udp"},
        "multi-threading": {"enable-multi-threading": threads > 1, "thread-pool-size": threads, "packet-queue-size": 64},
        "lease-database": {"type": "memfile", "persist": True, "name": f"{room}/kea.csv", "lfc-interval": 0},
        "valid-lifetime": 3600,
        "subnet4": [{"id": 1, "subnet": "10.0.0.0/8", "pools": pools()}],
        "loggers": [{"name": "kea-dhcp4", "severity": "ERROR", "output_options": [{"output": "stderr"}]}],
    }
    if tests:
        config["client-classes"] = tests_of(tests)
    with open(f"{room}/kea.json", "w", encoding="utf-8") as it:
        json.dump({"Dhcp4": config}, it)
    return ["kea-dhcp4", "-c", f"{room}/kea.json"]


def kdhcp_words(room, kdhcp, tests, store):
    config = {"server-address": SERVER, "valid-lifetime": 3600, "client-classes": tests_of(tests)}
    config["subnet4"] = [{"subnet": "10.0.0.0/8", "pools": pools()}]
    with open(f"{room}/kdhcp.json", "w", encoding="utf-8") as it:
        json.dump({"Dhcp4": config}, it)
    words = [kdhcp, "serve", "--config", f"{room}/kdhcp.json", "--bind", SERVER, "--count", str(2**64 - 1)]
    return words + (["--store", f"{room}/leases.db"] if store else [])


def alone(words):
    """Makes kdhcp handle each datagram alone. It then replies to the sender, which is the relay anyway."""
    return [*words, "--mirror"]


def coredhcp_words(room):
    """coredhcp keeps its range in a text file and syncs each new line before the reply. Its YAML file may be JSON."""
    plugins = [{"lease_time": "3600s"}, {"server_id": SERVER}, {"netmask": "255.0.0.0"}]
    plugins.append({"range": f"{room}/leases.txt {POOL.replace('-', ' ')} 3600s"})
    with open(f"{room}/coredhcp.yml", "w", encoding="utf-8") as it:
        json.dump({"server4": {"listen": [SERVER], "plugins": plugins}}, it)
    return ["coredhcp", "--conf", f"{room}/coredhcp.yml", "--loglevel", "error"]


def started(room, kdhcp, which, tests):
    """Starts a server, on the first processor, or on three processors if it has three threads."""
    for name in os.listdir(room):
        if name.startswith(("kea.csv", "leases.db", "leases.txt")):
            os.remove(f"{room}/{name}")
    if which.startswith("kea"):
        words = kea_words(room, 3 if which == "kea3" else 1, tests)
    elif which == "coredhcp":
        words = coredhcp_words(room)
    else:
        words = kdhcp_words(room, kdhcp, tests, which != "memory")
        if which == "alone":
            words = alone(words)
    cpus = "0,2,3" if which == "kea3" else "0"
    environment = dict(os.environ, KEA_PIDFILE_DIR=room, KEA_LOCKFILE_DIR="none")
    # Lines of events go to a file, as those of the unit do.
    with open(f"{room}/said", "w", encoding="utf-8") as said, open(f"{room}/events.lines", "w", encoding="utf-8") as log, \
            socket.socket(socket.AF_INET, socket.SOCK_DGRAM) as ours:
        if which == "handed":
            environment["LISTEN_FDS"] = "1"
            ours.setsockopt(socket.SOL_SOCKET, SO_RCVBUFFORCE, 4 << 20)
            ours.bind((SERVER, 67))

        def take():
            if which == "handed":
                os.dup2(ours.fileno(), 3)
                os.set_inheritable(3, True)

        words = ["taskset", "-c", cpus, *words]
        server = subprocess.Popen(words, stdout=log, stderr=said, env=environment, preexec_fn=take, close_fds=False)
    time.sleep(1.5)
    if server.poll() is not None:
        sys.exit(f"{which} ended: {open(f'{room}/said', encoding='utf-8').read()}")
    return server


def loaded(room, server, base, clients, vendor, *more):
    """The results of kdload for this many clients, numbered from `base`, 32 at a time unless `more` has another number."""
    words = [f"{room}/kdload", "--netns", "--server", SERVER, "--giaddr", RELAY, "--clients", str(clients)]
    words += ["--base", str(base), "--window", "32", "--pid", str(server.pid), "--pool", POOL, "--max-seconds", "600"]
    words += [*more, *(["--opt", f"60:{vendor.encode().hex()}"] if vendor else [])]
    it = subprocess.run(["taskset", "-c", "1", *words], capture_output=True, text=True, check=False)
    if it.returncode:
        sys.exit(f"kdload: {it.returncode} {it.stdout} {it.stderr}")
    return json.loads(it.stdout)


def commit_us(room):
    """The time of a commit of SQLite's own library, equally durable, as the mean of 2,000 in an empty database."""
    begun = time.time()
    subprocess.run(["taskset", "-c", "0", f"{room}/store", f"{room}/c.db", "2000"], check=True, stdout=subprocess.DEVNULL)
    spent = time.time() - begun
    for name in os.listdir(room):
        if name.startswith("c.db"):
            os.remove(f"{room}/{name}")
    return spent / 2000 * 1e6


def climbed(room, kdhcp, which):
    """Measures a server at each number of leases, and for a server with a file also the time of a commit."""
    server, base, found = started(room, kdhcp, which, 0), 0, []
    for level in LEVELS:
        if level > base:
            loaded(room, server, base, level - base, "")
            base = level
        found.append(loaded(room, server, base, MEASURED, ""))
        base += MEASURED
        if which in DURABLE:
            found[-1]["commit_us"] = commit_us(room)
    server.terminate()
    server.wait()
    return found


def tested(room, kdhcp, which):
    """Measures a server with each number of class tests."""
    found = []
    for count in TESTS:
        server = started(room, kdhcp, which, count)
        vendor = f"class-{count - 1}" if count else ""
        loaded(room, server, 0, 1_000, vendor)
        found.append(loaded(room, server, 1_000, MEASURED, vendor))
        server.terminate()
        server.wait()
    return found


def middle(rounds, index, read):
    return statistics.median(read(one[index]) for one in rounds)


def table(title, heads, rounds, read, form):
    print(f"\n| {title} | {' | '.join(f'{head:,}' for head in heads)} |")
    print("|---" * (len(heads) + 1) + "|")
    for which, all_rounds in rounds.items():
        cells = [form(middle(all_rounds, i, read)) for i in range(len(heads))]
        print(f"| {NAMES[which]} | {' | '.join(cells)} |")


def ticks(most):
    """Round numbers from 0 to at least the most, four to ten of them."""
    steps = (digit * 10**power for power in range(9) for digit in (1, 2, 5))
    step = next(it for it in steps if most <= 8 * it)
    return [step * part for part in range(-(-int(most) // step) + 1)]


def apart(heights, least=15):
    """Heights of labels, in the same order, that are moved down until no two touch."""
    placed, last = {}, -least
    for which, height in sorted(heights.items(), key=lambda it: it[1]):
        last = placed[which] = max(height, last + least)
    return placed


def picture(path, rounds, heads, over):
    """Draws DORA a second at the numbers in `heads`, which are equally far apart. Each server has a line, labelled at its end:
    kdhcp in blue, others in grey."""
    colours = {"file": "#1f5fa8", "memory": "#8db4dd", "alone": "#5b8fc7"}
    lines = {which: [middle(all_rounds, i, lambda it: it["per_s"]) for i in range(len(heads))] for which, all_rounds in rounds.items()}
    marks = ticks(max(max(line) for line in lines.values()))
    out = ['<svg xmlns="http://www.w3.org/2000/svg" width="760" height="360" font-family="sans-serif" font-size="12">']
    out.append('<rect width="760" height="360" fill="white"/><text x="60" y="18">DORA a second</text>')
    out.append(f'<text x="270" y="354" text-anchor="middle">number of {over}</text>')
    places = [80 + 400 * i / (len(heads) - 1) for i in range(len(heads))]
    out += [f'<text x="{x:.0f}" y="336" text-anchor="middle">{head:,}</text>' for x, head in zip(places, heads)]
    height = lambda value: 320 - 290 * value / marks[-1]
    for value in marks:
        out.append(f'<path d="M60 {height(value):.0f}H490" stroke="#dddddd"/>')
        out.append(f'<text x="54" y="{height(value) + 4:.0f}" text-anchor="end">{value:,}</text>')
    labels = apart({which: height(line[-1]) + 4 for which, line in lines.items()})
    for which, line in lines.items():
        colour = colours.get(which, "#777777")
        spots = [(x, height(y)) for x, y in zip(places, line)]
        points = " ".join(f"{x:.0f},{y:.0f}" for x, y in spots)
        out.append(f'<polyline points="{points}" fill="none" stroke="{colour}" stroke-width="2"/>')
        out += [f'<circle cx="{x:.0f}" cy="{y:.0f}" r="3" fill="{colour}"/>' for x, y in spots]
        out.append(f'<text x="496" y="{labels[which]:.0f}" fill="{colour}">{NAMES[which]}</text>')
    with open(path, "w", encoding="utf-8") as it:
        it.write("\n".join(out + ["</svg>", ""]))


def laid_out():
    """Adds the addresses of the server and the relays to the network namespace."""
    subprocess.run(["ip", "link", "set", "lo", "up"], check=True)
    for address in (SERVER, RELAY, OTHER_RELAY):
        subprocess.run(["ip", "address", "add", f"{address}/8", "dev", "lo"], check=True)


def million(room, kdhcp):
    """Measures Kea and kdhcp without a store with a million leases, one round: memory, new leases, renewals."""
    laid_out()
    print("| 1,000,000 leases | Resident memory in MB | DORA a second | Processor us a DORA | Processor us a renewal |")
    print("|---|---|---|---|---|")
    for which in ("kea", "memory"):
        server = started(room, kdhcp, which, 0)
        loaded(room, server, 0, 1_000_000, "", "--save", f"{room}/leases")
        new = loaded(room, server, 1_000_000, MEASURED, "")
        renewed = loaded(room, server, 0, 100_000, "", "--mode", "rebind", "--load", f"{room}/leases")
        server.terminate()
        server.wait()
        numbers = [f"{new['server']['rss_kb'] / 1000:.0f}", f"{new['per_s']:,.0f}"]
        numbers += [f"{it['server']['cpu_us_per_done']:.1f}" for it in (new, renewed)]
        print(f"| {NAMES[which]} | {' | '.join(numbers)} |", flush=True)


def whole(number):
    return f"{number:,.0f}"


def tables_of_levels(levels):
    table("DORA a second, leases before", LEVELS, levels, lambda it: it["per_s"], whole)
    table("Processor us a DORA, leases before", LEVELS, levels, lambda it: it["server"]["cpu_us_per_done"], lambda n: f"{n:.1f}")
    table("Resident memory in MB, leases before", LEVELS, levels, lambda it: it["server"]["rss_kb"] / 1000, lambda n: f"{n:.0f}")


def tables_of_commits(levels):
    table("A commit of SQLite's library, us, leases before", LEVELS, levels, lambda it: it["commit_us"], lambda n: f"{n:.0f}")
    table("A DORA's time over two such commits'", LEVELS, levels, lambda it: 1e6 / it["per_s"] / 2 / it["commit_us"], lambda n: f"{n:.2f}")


def durable(room, kdhcp):
    """Measures the servers that sync each lease, in turn, at each number of leases."""
    laid_out()
    levels = {which: [] for which in DURABLE}
    for _ in range(ROUNDS):
        for which in DURABLE:
            levels[which].append(climbed(room, kdhcp, which))
    tables_of_levels(levels)
    tables_of_commits(levels)


def main(room, kdhcp, path):
    laid_out()
    levels, tests = {which: [] for which in BESIDE_KEA}, {which: [] for which in BESIDE_KEA}
    for _ in range(ROUNDS):
        for which in BESIDE_KEA:
            levels[which].append(climbed(room, kdhcp, which))
            tests[which].append(tested(room, kdhcp, which))
    tables_of_levels(levels)
    table("DORA a second, class tests", TESTS, tests, lambda it: it["per_s"], whole)
    table("Processor us a DORA, class tests", TESTS, tests, lambda it: it["server"]["cpu_us_per_done"], lambda n: f"{n:.1f}")
    tables_of_commits({"file": levels["file"]})
    picture(path, levels, LEVELS, "leases")


def crowded(room, kdhcp, which):
    """Measures a server with each number of clients at a time, and the time of a commit."""
    server, base, found = started(room, kdhcp, which, 0), 0, []
    for window in WINDOWS:
        found.append(loaded(room, server, base, MEASURED, "", "--window", str(window)))
        base += MEASURED
        if which in ("file", "alone", "coredhcp"):
            found[-1]["commit_us"] = commit_us(room)
    server.terminate()
    server.wait()
    return found


def renewed(room, kdhcp, which):
    """The results of kdload for renewals of leases in mixed order."""
    server = started(room, kdhcp, which, 0)
    loaded(room, server, 0, RENEWED, "", "--save", f"{room}/renewed")
    found = loaded(room, server, 0, RENEWED, "", "--mode", "rebind", "--load", f"{room}/renewed")
    server.terminate()
    server.wait()
    return found


def flooded(room, kdhcp):
    """The slowest reply, in ms, to `HARMED` clients that renew at once, ten times, while others send `FLOOD` DISCOVERs a
    second through another relay. The server is given a socket with a buffer of 4 MiB, as by packaging/kdhcp.socket. None
    if the flood ended before the renewals."""
    server = started(room, kdhcp, "handed", 0)
    loaded(room, server, 0, HARMED, "", "--save", f"{room}/harmed")
    words = [f"{room}/kdload", "--netns", "--server", SERVER, "--giaddr", OTHER_RELAY, "--mode", "discover", "--pool", POOL]
    words += ["--clients", str(60 * FLOOD), "--base", "1000000", "--rate", str(FLOOD), "--window", "4096", "--max-seconds", "60"]
    flood = subprocess.Popen(["taskset", "-c", "2", *words], stdout=subprocess.DEVNULL, stderr=subprocess.DEVNULL)
    time.sleep(2)
    slowest = 0.0
    for _ in range(10):
        time.sleep(0.5)
        it = loaded(room, server, 0, HARMED, "", "--mode", "rebind", "--load", f"{room}/harmed", "--window", str(HARMED))
        slowest = max(slowest, it["whole_us"]["max"] / 1000)
    is_flooded = flood.poll() is None
    flood.terminate()
    flood.wait()
    server.terminate()
    server.wait()
    return slowest if is_flooded else None


def batches(room, kdhcp, path):
    """Measures servers in turn with each number of clients at a time, then renewals and a flood."""
    laid_out()
    crowds = {which: [] for which in BATCHED}
    renewals = {which: [] for which in ("file", "alone")}
    for _ in range(ROUNDS):
        for which in BATCHED:
            crowds[which].append(crowded(room, kdhcp, which))
        for which in renewals:
            renewals[which].append([renewed(room, kdhcp, which)])
    table("DORA a second, clients at a time", WINDOWS, crowds, lambda it: it["per_s"], whole)
    table("Processor us a DORA, clients at a time", WINDOWS, crowds, lambda it: it["server"]["cpu_us_per_done"], lambda n: f"{n:.1f}")
    synced = {which: crowds[which] for which in ("file", "alone", "coredhcp")}
    table("A commit of SQLite's library, us, clients at a time", WINDOWS, synced, lambda it: it["commit_us"], lambda n: f"{n:.0f}")
    table("Renewals a second, number of leases", [RENEWED], renewals, lambda it: it["per_s"], whole)
    slowest = [flooded(room, kdhcp) for _ in range(ROUNDS)]
    print(f"\nThe slowest of {HARMED} renewals at once, ten times, under {FLOOD:,} DISCOVERs a second, ms: {slowest}")
    picture(path, {which: crowds[which] for which in BATCHED[:4]}, WINDOWS, "clients at a time")


if __name__ == "__main__":
    works = {"million": million, "durable": durable}
    if sys.argv[3] == "batches":
        batches(*sys.argv[1:3], sys.argv[4])
    elif sys.argv[3] in works:
        works[sys.argv[3]](*sys.argv[1:3])
    else:
        main(*sys.argv[1:])
