#!/usr/bin/env python3
"""Computes the replies of a server to INFORMs, for the configuration of an example.

    answers.py FOLDER      reads FOLDER/config.json, FOLDER/*.k4tk and FOLDER/events.lines, and prints the replies
    answers.py             writes replies.lines to each folder of cases/examples that has no
                           leases.lines; examples.py writes those of the others

It computes the replies a second time, from RFC 2131, 2132, 3046 and Kea's manual. It was written separately from the
server, in another language, and uses none of the server's code.
"""
import glob
import json
import os
import re
import sys

HERE = os.path.dirname(os.path.abspath(__file__))
sys.path.insert(0, os.path.join(HERE, "..", "examples", "replay"))
from day import acknowledged, address, readable, unheard  # noqa: E402

# ---- messages


def number(four):
    return int.from_bytes(four, "big")


def relay_options(found):
    """The sub-options of option 82, the first of each code; none if the value is malformed."""
    value, subs = found.get(82, b""), {}
    while value:
        if len(value) < 2 or len(value) < 2 + value[1]:
            return {}
        subs.setdefault(value[0], value[2 : 2 + value[1]])
        value = value[2 + value[1] :]
    return subs


# ---- class tests in Kea's language: strings, hexadecimal, options, relay4, mac, substring, member, ==, not, and, or

NAMES = {"host-name": 12, "vendor-class-identifier": 60, "dhcp-client-identifier": 61}
TOKEN = re.compile(r"\s*('[^']*'|0x[0-9a-fA-F]+|-?\d+|[A-Za-z_][\w-]*|==|.)")


class Test:
    def __init__(self, text, datagram, found, held):
        self.left = TOKEN.findall(text)
        self.datagram, self.found, self.held = datagram, found, held

    def take(self, *wanted):
        token = self.left.pop(0)
        assert not wanted or token in wanted, (token, wanted)
        return token

    def at(self, *tokens):
        return bool(self.left) and self.left[0] in tokens

    def either(self):
        return any(self.operands("or", self.both))

    def both(self):
        return all(self.operands("and", self.negated))

    def operands(self, word, operand):
        """The values of all operands that this word joins."""
        values = [operand()]
        while self.at(word):
            self.take()
            values.append(operand())
        return values

    def negated(self):
        if self.at("not"):
            self.take()
            return not self.negated()
        value = self.single()
        if self.at("=="):
            self.take()
            return value == self.single()
        return value

    def single(self):
        token = self.take()
        if token == "(":
            value = self.either()
            self.take(")")
            return value
        if token.startswith("'"):
            return token[1:-1].encode()
        if token.startswith("0x"):
            digits = token[2:]
            return bytes.fromhex(digits if len(digits) % 2 == 0 else "0" + digits)
        if token in ("option", "relay4"):
            return self.option(self.found if token == "option" else relay_options(self.found))
        if token == "pkt4":
            self.take(".")
            self.take("mac")
            return self.datagram[28 : 28 + min(self.datagram[2], 16)]
        if token == "member":
            self.take("(")
            name = self.take()[1:-1].encode()
            self.take(")")
            return name in self.held
        assert token == "substring", token
        return self.substring()

    def option(self, values):
        self.take("[")
        name = self.take()
        code = NAMES[name] if name in NAMES else int(name)
        self.take("]")
        self.take(".")
        return values.get(code, b"") if self.take("hex", "exists") == "hex" else code in values

    def substring(self):
        self.take("(")
        value = self.single()
        self.take(",")
        start = int(self.take())
        self.take(",")
        size = self.take()
        self.take(")")
        assert start >= 0 and (size == "all" or int(size) >= 0)
        return value[start:] if size == "all" else value[start : start + int(size)]


# ---- token files: only the tokens that the examples use


def run(file, found):
    """The truth value of a token file's program for the options of a message."""
    assert file[:4] == b"K4TK" and file[10] == 0
    at, stack = 13, []
    while at < len(file):
        op, at = file[at], at + 1
        if op == 0x01:
            size = int.from_bytes(file[at : at + 2], "big")
            stack.append(file[at + 2 : at + 2 + size])
            at += 2 + size
        elif op == 0x03:
            stack.append(found.get(file[at], b""))
            at += 1
        elif op == 0x04:
            stack.append(relay_options(found).get(file[at], b""))
            at += 1
        elif op == 0x09:
            stack.append(stack.pop() == stack.pop())
        elif op == 0x0E:
            start, mode = int.from_bytes(file[at : at + 4], "big", signed=True), file[at + 4]
            assert start >= 0 and mode == 0
            size = int.from_bytes(file[at + 5 : at + 9], "big", signed=True)
            stack.append(stack.pop()[start : start + size])
            at += 9
        else:
            raise AssertionError(f"token {op:02x}")
    assert len(stack) == 1
    return stack[0]


# ---- the configuration


def hexadecimal(text):
    return bytes.fromhex(re.sub("^0[xX]", "", text.replace(":", "").replace(" ", "")))


def prefix(text):
    first, length = text.split("/")
    size = 2 ** (32 - int(length))
    first = number(address(first)) // size * size
    return first, first + size - 1


def pool(text):
    if "-" not in text:
        return prefix(text)
    first, last = text.split("-")
    return number(address(first.strip())), number(address(last.strip()))


def classes(root, files, datagram, found, joined=()):
    """The names of the classes that a message is in. Some may be held before any test."""
    held = [b"ALL"] + ([b"VENDOR_CLASS_" + found[60]] if 60 in found else [])
    held += [name for name in dict.fromkeys(joined) if name not in held]
    for entry in root.get("client-classes", []):
        name = entry["name"].encode()
        if "test" in entry:
            is_in = Test(entry["test"], datagram, found, held).either()
        else:
            is_in = "tokens" in entry and run(files[entry["tokens"]], found)
        if is_in and name not in held:
            held.append(name)
    return held


def given(root, subnet, held, ciaddr):
    """The configured options by code, from the pool, the subnet, the client's classes in order, the global list, and the mask."""
    first, last = prefix(subnet["subnet"])
    holders = [entry for entry in subnet.get("pools", []) if pool(entry["pool"])[0] <= ciaddr <= pool(entry["pool"])[1]][:1]
    holders.append(subnet)
    holders += [entry for entry in root.get("client-classes", []) if entry["name"].encode() in held]
    holders.append(root)
    values = {}
    for holder in holders:
        for option in holder.get("option-data", []):
            values.setdefault(option["code"], hexadecimal(option["data"]))
    values.setdefault(1, (0xFFFFFFFF - (last - first)).to_bytes(4, "big"))
    return values


def answer(root, files, datagram):
    found = readable(datagram)
    reason = unheard(datagram, found)
    if reason:
        return reason
    held = classes(root, files, datagram, found)
    if b"DROP" in held:
        return "quiet 4 DropClass"
    assert found[53][0] == 8, "only INFORM is served"
    ciaddr, giaddr = datagram[12:16], datagram[24:28]
    if ciaddr == bytes(4):
        return "quiet 10 NoCiaddr"
    place = number(giaddr) or number(ciaddr)
    for subnet in root.get("subnet4", []):
        first, last = prefix(subnet["subnet"])
        if first <= place <= last and ("client-class" not in subnet or subnet["client-class"].encode() in held):
            return acknowledged(datagram, found, address(root["server-address"]), given(root, subnet, held, number(ciaddr)))
    return "quiet 5 NoSubnet"


def answers(folder):
    with open(f"{folder}/config.json", encoding="utf-8") as file:
        root = json.load(file)["Dhcp4"]
    files = {os.path.basename(path): open(path, "rb").read() for path in glob.glob(f"{folder}/*.k4tk")}
    with open(f"{folder}/events.lines", encoding="ascii") as file:
        events = [line.rstrip("\n").split(" ") for line in file]
    return [f"{moment} {answer(root, files, bytes.fromhex(digits))}\n" for moment, digits in events]


def main():
    if len(sys.argv) == 2:
        sys.stdout.writelines(answers(sys.argv[1]))
        return
    for path in sorted(glob.glob(f"{HERE}/../cases/examples/*/config.json")):
        folder = os.path.dirname(path)
        if os.path.exists(f"{folder}/leases.lines"):
            continue
        with open(f"{folder}/replies.lines", "w", encoding="ascii") as file:
            file.writelines(answers(folder))


if __name__ == "__main__":
    main()
