#!/usr/bin/env python3
"""A day of 1,000 datagrams for `kdhcp replay`, and what a server at 192.0.2.1 answers.

    day.py lines      prints the day: on each line a time and a datagram in hexadecimal
    day.py replies    reads such lines from standard input and prints the replies

The replies are computed from RFC 2131, 2132, 3046, 3396 and 6842, with none of the server's code and in another language. Only
an INFORM has a reply.
"""
import random
import sys

COOKIE = bytes([99, 130, 83, 99])
SERVER = bytes([192, 0, 2, 1])
MASK = bytes([255, 255, 255, 0])


def address(text):
    return bytes(int(part) for part in text.split("."))


def dotted(four):
    return ".".join(str(byte) for byte in four)


# ---- the answers


def pieces(area):
    """The pieces of an area of options, or None where one is cut off."""
    found, at = [], 0
    while at < len(area) and area[at] != 255:
        if area[at] == 0:
            at += 1
            continue
        if at + 2 > len(area) or at + 2 + area[at + 1] > len(area):
            return None
        found.append((area[at], area[at + 2 : at + 2 + area[at + 1]]))
        at += 2 + area[at + 1]
    return found


def options(datagram):
    """The joined options over the areas in use, or None."""
    field = pieces(datagram[240:])
    if field is None:
        return None
    overload = b"".join(value for code, value in field if code == 52)
    areas = []
    if overload in (b"\x01", b"\x03"):
        areas.append(pieces(datagram[108:236]))
    if overload in (b"\x02", b"\x03"):
        areas.append(pieces(datagram[44:108]))
    joined = {}
    for area in [field] + areas:
        if area is None:
            return None
        for code, value in area:
            joined[code] = joined.get(code, b"") + value
    return joined


def readable(datagram):
    """The options of a readable message, or None."""
    if not 240 <= len(datagram) <= 4096 or datagram[236:240] != COOKIE or datagram[0] not in (1, 2):
        return None
    found = options(datagram)
    if found is None or found.get(53) not in [bytes([kind]) for kind in range(1, 9)]:
        return None
    if any(len(found[code]) != 4 for code in (50, 54) if code in found):
        return None
    return found


def written(code, value):
    """An option in pieces of at most 255 bytes, at least one."""
    cut = [value[at : at + 255] for at in range(0, len(value), 255)] or [b""]
    return b"".join(bytes([code, len(piece)]) + piece for piece in cut)


def unheard(datagram, found):
    """Why a datagram with these options gets nothing under any configuration, or None."""
    if found is None:
        return "quiet 1 Unreadable"
    if datagram[0] == 2 or found[53][0] in (2, 5, 6):
        return "quiet 2 NotRequest"
    if not found.get(61) and datagram[2] == 0:
        return "quiet 3 NoIdentity"
    return None


def answer(datagram):
    found = readable(datagram)
    reason = unheard(datagram, found)
    if reason:
        return reason
    assert found[53][0] == 8, "only INFORM is served"
    ciaddr, giaddr = datagram[12:16], datagram[24:28]
    if ciaddr == bytes(4):
        return "quiet 10 NoCiaddr"
    if (giaddr if any(giaddr) else ciaddr)[:3] != SERVER[:3]:
        return "quiet 5 NoSubnet"
    return acknowledged(datagram, found, SERVER, {1: MASK})


def acknowledged(datagram, found, server, values):
    """The ACK of an INFORM with the configured options by code: those asked for, in rising code, as far as they fit."""
    ciaddr, giaddr = datagram[12:16], datagram[24:28]
    greatest = int.from_bytes(found[57], "big") if len(found.get(57, b"")) == 2 else 576
    room = min(1472, max(576, greatest) - 28)
    front = written(53, b"\x05") + written(54, server)
    front += written(61, found[61]) if 61 in found else b""
    end = written(82, found[82]) if 82 in found else b""
    used = 240 + len(front) + len(end) + 1
    if used > room:
        return "quiet 11 ReplyTooLong"
    middle = b""
    for code, value in sorted(values.items()):
        option = written(code, value)
        if (55 not in found or code in found[55]) and used + len(middle) + len(option) <= room:
            middle += option
    header = bytes([2, datagram[1], datagram[2], 0]) + datagram[4:8] + bytes(2) + datagram[10:12]
    header += ciaddr + bytes(8) + giaddr + datagram[28:44] + bytes(192) + COOKIE
    reply = (header + front + middle + end + b"\xff").ljust(300, b"\0")
    to = f"relay {dotted(giaddr)}:67" if any(giaddr) else f"unicast {dotted(ciaddr)}:68"
    return f"reply {to} {reply.hex()}"


# ---- the day


def datagram(chance):
    """An INFORM as clients and relays send it, and now and then something else."""
    mac = bytes([2, 0, 94]) + chance.randbytes(3)
    ciaddr = bytes([192, 0, 2, chance.randrange(2, 255)])
    giaddr = bytes(4)
    kind, op, hlen = 8, 1, 6
    parts = []
    if chance.random() < 0.4:
        parts.append((61, b"\x01" + mac))
    if chance.random() < 0.7:
        asked = [1, 3, 6, 12, 15, 28, 42, 43, 119, 121]
        parts.append((55, bytes(chance.sample(asked, chance.randrange(0, len(asked))))))
    if chance.random() < 0.5:
        parts.append((57, chance.choice([576, 590, 1500, 300, 9000]).to_bytes(2, "big")))
    if chance.random() < 0.5:
        parts.append((60, chance.choice([b"MSFT 5.0", b"dhcpcd-9.4.1", b"udhcp 1.36.1", b""])))
    if chance.random() < 0.3:
        giaddr = address(chance.choice(["192.0.2.254", "192.0.2.253"]))
        circuit = b"eth %d/%d" % (chance.randrange(4), chance.randrange(48))
        parts.append((82, bytes([1, len(circuit)]) + circuit + bytes([2, 6]) + mac))
    odd = chance.randrange(20)
    if odd == 0:
        ciaddr = bytes(4)
    elif odd == 1:
        ciaddr = address("198.51.100.7")
    elif odd == 2:
        kind = chance.choice([2, 5, 6])
    elif odd == 3:
        op = 2
    elif odd == 4:
        hlen = 0
    elif odd == 5:
        parts.append((61, chance.randbytes(chance.randrange(200, 700))))
    elif odd == 6:
        parts.append((52, bytes([chance.randrange(5)])))
    elif odd == 7:
        parts.append((50, chance.randbytes(chance.choice([3, 4]))))
    flags = chance.choice([0, 0, 0, 0x8000, 0x7FFF]).to_bytes(2, "big")
    header = bytes([op, 1, hlen, int(any(giaddr))]) + chance.randbytes(4) + bytes([0, 3]) + flags
    header += ciaddr + bytes(8) + giaddr + mac.ljust(16, b"\0")
    names = (written(12, b"host") + b"\xff").ljust(64, b"\0") + bytes(128)
    field = written(53, bytes([kind])) + b"".join(written(*part) for part in parts)
    whole = header + names + COOKIE + field + b"\xff"
    if odd == 8:
        return whole[: chance.randrange(len(whole))]
    return whole.ljust(300, b"\0") if chance.random() < 0.6 else whole


def lines():
    chance = random.Random(2131)
    moment = 1_795_305_600
    for _ in range(1000):
        moment += chance.randrange(0, 173)
        yield f"{moment} {datagram(chance).hex()}"


def main():
    if sys.argv[1:] == ["lines"]:
        for line in lines():
            print(line)
    elif sys.argv[1:] == ["replies"]:
        for line in sys.stdin:
            moment, text = line.rstrip("\n").split(" ")
            print(moment, answer(bytes.fromhex(text)))
    else:
        sys.exit(__doc__)


if __name__ == "__main__":
    main()
