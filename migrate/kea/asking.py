"""A real Kea in a network namespace, and the relay in another one that asks it (for compare)."""
import copy
import ctypes
import itertools
import json
import os
import re
import socket
import subprocess
import time
from ipaddress import IPv4Address
from typing import NamedTuple, Optional

SERVER, RELAY = "kdhcp-compare-s", "kdhcp-compare-r"
# An address of the server that is always there, and that of the relay. Clients and subnets have others.
BASE, RELAYED = "198.18.0.2", "198.18.0.1"
# An address in no subnet.
ELSEWHERE = "198.18.7.7"
COOKIE = bytes.fromhex("63825363")
KINDS = {1: "DISCOVER", 2: "OFFER", 3: "REQUEST", 5: "ACK", 6: "NAK", 8: "INFORM"}
# Keys of `Dhcp4` that the copy does not have. In `sanity-checks` may be a key that Kea 2.2.0 does not know and does not name.
DROPPED = {"control-socket", "control-sockets", "sanity-checks"}
# Keys that are newer than Kea 2.2.0. kdhcp skips them, or takes only the value that is Kea's default.
NEWER = {
    "allocator", "ddns-conflict-resolution-mode", "ddns-ttl-percent", "early-global-reservations-lookup",
    "ip-reservations-unique", "never-send", "output-options", "pool-id", "reservations-lookup-first", "stash-agent-options",
}  # fmt: skip


def run(*words, **rest):
    return subprocess.run(words, capture_output=True, text=True, check=False, **rest)


def remove_links():
    for name in (SERVER, RELAY):
        run("ip", "netns", "del", name)


def make_links():
    """Makes two namespaces and enters the relay's. To the server all addresses are on its link, and the relay has all of them."""
    for name in (SERVER, RELAY):
        run("ip", "netns", "add", name)
        run("ip", "netns", "exec", name, "sysctl", "-qw", "net.ipv4.conf.all.rp_filter=0", "net.ipv4.conf.default.rp_filter=0")
    run("ip", "link", "add", "eth0", "netns", SERVER, "type", "veth", "peer", "name", "relay0", "netns", RELAY)
    for words in (
        f"-n {SERVER} addr add {BASE}/32 dev eth0",
        f"-n {SERVER} link set eth0 up",
        f"-n {SERVER} route add default dev eth0",
        f"-n {RELAY} link set lo up",
        f"-n {RELAY} addr add {RELAYED}/32 dev relay0",
        f"-n {RELAY} link set relay0 up",
        f"-n {RELAY} route add local 0.0.0.0/0 dev lo",
    ):
        subprocess.run(["ip", *words.split()], check=True)
    with open(f"/run/netns/{RELAY}", "rb") as file:
        if ctypes.CDLL(None, use_errno=True).setns(file.fileno(), 0):
            raise OSError(ctypes.get_errno(), "setns")


def without(value, key):
    """A value without a key, at any depth."""
    if isinstance(value, dict):
        return {name: without(part, key) for name, part in value.items() if name != key}
    return [without(part, key) for part in value] if isinstance(value, list) else value


class Kea:
    """Kea with a copy of a configuration. `why` says why it does not serve, if so, and `left_out` lists the newer keys."""

    def __init__(self, whole, room, address):
        self.room, self.address, self.process, self.left_out = room, address, None, []
        run("ip", "-n", SERVER, "addr", "add", f"{address}/32", "dev", "eth0")
        run("ip", "-n", RELAY, "route", "replace", f"{address}/32", "dev", "relay0")
        self.why = self.write(whole)
        if not self.why:
            self.why = self.start()

    def write(self, whole):
        """Writes the copy: without what belongs to the machine, and without keys that this release does not know."""
        log = {"name": "kea-dhcp4", "severity": "DEBUG", "debuglevel": 55, "output_options": [{"output": f"{self.room}/log"}]}
        server = {key: part for key, part in copy.deepcopy(whole["Dhcp4"]).items() if key not in DROPPED}
        server["interfaces-config"] = {"interfaces": [f"eth0/{self.address}"], "dhcp-socket-type": "udp"}
        server["lease-database"] = {"type": "memfile", "persist": False}
        server["multi-threading"] = {"enable-multi-threading": False}
        server["loggers"] = [log]
        while True:
            with open(f"{self.room}/kea.json", "w", encoding="utf-8") as file:
                json.dump({"Dhcp4": server}, file, ensure_ascii=False)
            done = run("ip", "netns", "exec", SERVER, "kea-dhcp4", "-t", f"{self.room}/kea.json")
            unknown = re.search(r'got unexpected keyword "([^"]*)"', done.stdout + done.stderr)
            if done.returncode == 0:
                return ""
            if unknown is None or unknown[1] not in NEWER:
                return (done.stdout + done.stderr).strip().replace("\n", " ")[-300:]
            self.left_out.append(unknown[1])
            server = without(server, unknown[1])

    def start(self):
        places = {**os.environ, "KEA_PIDFILE_DIR": self.room, "KEA_LOCKFILE_DIR": self.room}
        words = ["ip", "netns", "exec", SERVER, "kea-dhcp4", "-c", f"{self.room}/kea.json"]
        self.process = subprocess.Popen(words, stdout=subprocess.DEVNULL, stderr=subprocess.DEVNULL, env=places)
        for _ in range(200):
            if "DHCP4_STARTED" in self.log():
                return ""
            if self.process.poll() is not None:
                return "it ended: " + " ".join(line for line in self.log().splitlines() if " ERROR " in line)[-300:]
            time.sleep(0.05)
        return "it does not start"

    def log(self):
        """The log so far."""
        if not os.path.exists(f"{self.room}/log"):
            return ""
        with open(f"{self.room}/log", encoding="utf-8", errors="replace") as file:
            return file.read()

    def stop(self):
        if self.process:
            self.process.terminate()
            self.process.wait()
        run("ip", "-n", SERVER, "addr", "del", f"{self.address}/32", "dev", "eth0")


def option(code, value):
    """An option as a message has it."""
    return bytes([code, len(value)]) + value


def options_in(area):
    """The options of an area by code, each joined of its pieces (RFC 3396)."""
    found, at = {}, 0
    while at < len(area) and area[at] != 255:
        if area[at]:
            found[area[at]] = found.get(area[at], b"") + area[at + 2 : at + 2 + area[at + 1]]
            at += 1 + area[at + 1]
        at += 1
    return found


def options_of(message):
    """The options of a message, also those in its fields `file` and `sname` (RFC 2132 section 9.3)."""
    found = options_in(message[240:])
    overload = (found.pop(52, None) or b"\0")[0]
    for bit, first, end in ((1, 108, 236), (2, 44, 108)):
        for code, value in options_in(message[first:end] if overload & bit else b"").items():
            found[code] = found.get(code, b"") + value
    return found


class Exchange(NamedTuple):
    """A datagram: its name and type, the seconds since the first one, the codes that it asks for, its bytes, and Kea's reply."""

    name: str
    kind: int
    after: int
    asked: set
    datagram: bytes
    reply: Optional[bytes]


class Relay:
    """Sends messages of clients to a server, and keeps them with the replies."""

    def __init__(self, server, asked):
        self.server, self.asked, self.exchanges, self.began, self.numbers = server, asked, [], time.time(), itertools.count(1)
        self.sockets = [socket.socket(socket.AF_INET, socket.SOCK_DGRAM) for _ in (67, 68)]
        for each, port in zip(self.sockets, (67, 68)):
            each.bind(("0.0.0.0", port))
            each.setblocking(False)

    def send(self, name, kind, hardware, giaddr="0.0.0.0", ciaddr="0.0.0.0", asked=None, more=b""):
        """Sends a message and returns the reply, or None if there is none within half a second."""
        number, asked = next(self.numbers).to_bytes(4, "big"), self.asked if asked is None else asked
        message = bytes([1, 1, len(hardware), 0]) + number + bytes(4) + IPv4Address(ciaddr).packed + bytes(8)
        message += IPv4Address(giaddr).packed + hardware.ljust(16, b"\0") + bytes(192) + COOKIE
        message += option(53, bytes([kind])) + option(57, (1472).to_bytes(2, "big")) + more
        message += (option(55, bytes(sorted(asked))) if asked else b"") + b"\xff"
        after = int(time.time() - self.began)
        self.sockets[0].sendto(message, (self.server, 67))
        reply, until = None, time.time() + 0.5
        while reply is None and time.time() < until:
            time.sleep(0.001)
            for each in self.sockets:
                try:
                    came = each.recv(65536)
                except BlockingIOError:
                    continue
                reply = came if came[4:8] == number else reply
        self.exchanges.append(Exchange(f"{name} {KINDS[kind]}", kind, after, set(asked), message, reply))
        return reply

    def lease(self, name, hardware, giaddr, more=b""):
        """A DISCOVER and the REQUEST of what was offered. Returns the address that was leased, if one was."""
        offer = self.send(name, 1, hardware, giaddr, more=more)
        if offer is None:
            return None
        wish = option(50, offer[16:20]) + option(54, options_of(offer).get(54, b""))
        leased = self.send(name, 3, hardware, giaddr, more=more + wish)
        return IPv4Address(leased[16:20]) if leased and options_of(leased).get(53) == b"\5" else None

    def whole_lease(self, name, hardware, giaddr, still):
        """What a client may send from its DISCOVER on. `still` is the address that it has if it gets no lease."""
        address = self.lease(name, hardware, giaddr)
        if address:
            self.send(f"{name} that renews", 3, hardware, ciaddr=address)
            self.send(f"{name} that rebinds", 3, hardware, giaddr, address)
            self.send(f"{name} that reboots", 3, hardware, giaddr, more=option(50, address.packed))
            self.send(f"{name} that moved", 3, hardware, giaddr, more=option(50, IPv4Address(ELSEWHERE).packed))
        self.send(name, 8, hardware, giaddr, address or still)
        self.send(f"{name} that asks for no option", 1, hardware, giaddr, asked=())
        self.send(f"{name} that asks for little", 1, hardware, giaddr, asked={1})

    def close(self):
        for each in self.sockets:
            each.close()
