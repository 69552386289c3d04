#!/usr/bin/env python3
"""A DHCP client for a trial: asks a server for an address, as `kdhcp serve --mirror` answers it, and says what it got.

    ask.py ADDRESS PORT [HARDWARE]

HARDWARE is the client's hardware address, twelve hexadecimal digits.
"""
import socket
import sys
import time

COOKIE = bytes.fromhex("63825363")


def message(kind, hardware, options=b""):
    """A datagram of a client without an address (RFC 2131 section 2)."""
    header = bytes([1, 1, 6, 0]) + hardware[2:] + bytes(20) + hardware + bytes(10 + 64 + 128)
    return header + COOKIE + bytes([53, 1, kind]) + options + b"\xff"


def options(reply):
    """The values of a reply's options by their codes."""
    found, at = {}, 240
    while at < len(reply) and reply[at] != 255:
        if reply[at] == 0:
            at += 1
            continue
        found[reply[at]] = reply[at + 2 : at + 2 + reply[at + 1]]
        at += 2 + reply[at + 1]
    return found


def answered(link, text):
    """The reply to a datagram, which is sent again each second until one comes."""
    for _ in range(10):
        link.send(text)
        try:
            return link.recv(2_000)
        except TimeoutError:
            continue
        except ConnectionRefusedError:
            time.sleep(1)
    sys.exit("no reply")


def main():
    if len(sys.argv) not in (3, 4):
        sys.exit(__doc__)
    address, port = sys.argv[1], int(sys.argv[2])
    hardware = bytes.fromhex(sys.argv[3] if len(sys.argv) > 3 else "0a0000000001")
    with socket.socket(socket.AF_INET, socket.SOCK_DGRAM) as link:
        link.settimeout(1)
        link.connect((address, port))
        offer = answered(link, message(1, hardware))
        server, wanted = options(offer)[54], offer[16:20]
        ack = answered(link, message(3, hardware, b"\x36\x04" + server + b"\x32\x04" + wanted))
    seconds = int.from_bytes(options(ack)[51], "big")
    print(f"{socket.inet_ntoa(ack[16:20])} for {seconds} seconds from {socket.inet_ntoa(server)}")


if __name__ == "__main__":
    main()
