"""Kea's standard DHCPv4 options: their names, codes and types, and the bytes of their values (for ../from_kea.py)."""
import ipaddress
import re
from typing import Callable, NamedTuple

# The names and codes of each type. A star after the last type means that it repeats; a plus joins types.
STANDARD = {
    "ipv4-address": "subnet-mask 1 swap-server 16 broadcast-address 28 router-solicitation-address 32"
    " dhcp-requested-address 50 dhcp-server-identifier 54 subnet-selection 118",
    "ipv4-address*": "routers 3 time-servers 4 name-servers 5 domain-name-servers 6 log-servers 7 cookie-servers 8"
    " lpr-servers 9 impress-servers 10 resource-location-servers 11 policy-filter 21 static-routes 33 nis-servers 41"
    " ntp-servers 42 netbios-name-servers 44 netbios-dd-server 45 font-servers 48 x-display-manager 49"
    " nisplus-servers 65 mobile-ip-home-agent 68 smtp-server 69 pop-server 70 nntp-server 71 www-server 72"
    " finger-server 73 irc-server 74 streettalk-server 75 streettalk-directory-assistance-server 76 nds-servers 85"
    " bcms-controller-address 89 associated-ip 92 netinfo-server-address 112 pana-agent 136 capwap-ac-v4 138",
    # Kea's manual calls domain-name an fqdn, but Kea 2.2.0 sends it as text (RFC 2132 section 3.17).
    "string": "host-name 12 merit-dump 14 domain-name 15 root-path 17 extensions-path 18 nis-domain 40"
    " netbios-scope 47 dhcp-message 56 vendor-class-identifier 60 nwip-domain-name 62 nisplus-domain-name 64"
    " tftp-server-name 66 boot-file-name 67 nds-tree-name 86 nds-context 87 uap-servers 98 pcode 100 tcode 101"
    " netinfo-server-tag 113 v4-captive-portal 114",
    "fqdn": "v4-lost 137 v4-access-domain 213",
    "fqdn*": "bcms-controller-names 88 domain-search 119 sip-ua-cs-domains 141",
    "boolean": "ip-forwarding 19 non-local-source-routing 20 all-subnets-local 27 perform-mask-discovery 29"
    " mask-supplier 30 router-discovery 31 trailer-encapsulation 34 ieee802-3-encapsulation 36"
    " tcp-keepalive-garbage 39",
    "uint8": "default-ip-ttl 23 default-tcp-ttl 37 netbios-node-type 46 dhcp-option-overload 52 dhcp-message-type 53"
    " auto-config 116",
    "uint8*": "dhcp-parameter-request-list 55",
    "uint16": "boot-size 13 max-dgram-reassembly 22 interface-mtu 26 dhcp-max-message-size 57",
    "uint16*": "path-mtu-plateau-table 25 client-system 93 name-service-search 117",
    "uint32": "path-mtu-aging-timeout 24 arp-cache-timeout 35 tcp-keepalive-interval 38 dhcp-lease-time 51"
    " dhcp-renewal-time 58 dhcp-rebinding-time 59 client-last-transaction-time 91 v6-only-preferred 108",
    "int32": "time-offset 2",
    "binary": "dhcp-client-identifier 61 nwip-suboptions 63 user-class 77 authenticate 90 geoconf-civic 99",
    "empty": "vendor-encapsulated-options 43 dhcp-agent-options 82 vivso-suboptions 125",
    "boolean+ipv4-address*": "slp-directory-agent 78",
    "boolean+string": "slp-service-scope 79",
    "uint8+uint8+uint8": "client-ndi 94",
    "uint8+binary": "uuid-guid 97",
    "uint32+binary": "vivco-suboptions 124",
    "uint8+ipv4-address+ipv4-address+fqdn*": "rdnss-selection 146",
    "uint8+psid": "v4-portparams 159",
    "uint8+uint8+ipv6-address+ipv4-address*": "option-6rd 212",
}


class Kind(NamedTuple):
    """An option: its code, the types of its values, and whether the last type may repeat."""

    code: int
    types: tuple
    again: bool


def standard() -> dict:
    """The standard options by name."""
    found = {}
    for types, names in STANDARD.items():
        words = names.split()
        for name, code in zip(words[::2], words[1::2]):
            found[name] = Kind(int(code), tuple(types.rstrip("*").split("+")), types.endswith("*"))
    return found


def defined(entry: dict) -> Kind:
    """The option that an entry of `option-def` defines."""
    types = entry["record-types"].replace(" ", "").split(",") if entry["type"] == "record" else [entry["type"]]
    return Kind(entry["code"], ("empty",) if entry.get("encapsulate") else tuple(types), entry.get("array", False))


def octets(text: str) -> bytes:
    """The bytes of Kea's hexadecimal text, or of a quoted text."""
    text = text.strip()
    if re.fullmatch("'.*'", text):
        return text[1:-1].encode()
    parts = re.sub("^0[xX]", "", text).replace(" ", ":").split(":")
    return bytes.fromhex("".join("0" * (len(part) % 2) + part for part in parts))


def number(size: int, signed: bool = False) -> Callable[[str], bytes]:
    """A whole number, decimal or hexadecimal, in network order."""
    return lambda text: int(text, 16 if text[:2] in ("0x", "0X") else 10).to_bytes(size, "big", signed=signed)


def truth(text: str) -> bytes:
    return {"true": b"\1", "1": b"\1", "false": b"\0", "0": b"\0"}[text.lower()]


def domain(text: str) -> bytes:
    """A domain name as labels, each after its length (RFC 1035 section 3.1)."""
    labels = [label.encode("ascii") for label in text.rstrip(".").split(".")]
    if not all(1 <= len(label) <= 63 for label in labels):
        raise ValueError(text)
    return b"".join(bytes([len(label)]) + label for label in labels) + b"\0"


def port_set(text: str) -> bytes:
    """The length of a port set identifier, and the identifier (RFC 7597)."""
    port, length = map(int, text.split("/"))
    return bytes([length]) + (port << (16 - length)).to_bytes(2, "big")


def tuple_of(text: str) -> bytes:
    return bytes([len(text.encode())]) + text.encode()


WRITERS: dict = {
    "ipv4-address": lambda text: ipaddress.IPv4Address(text).packed,
    "ipv6-address": lambda text: ipaddress.IPv6Address(text).packed,
    "string": str.encode,
    "fqdn": domain,
    "boolean": truth,
    "binary": octets,
    "psid": port_set,
    "tuple": tuple_of,
}
for bits in (8, 16, 32):
    WRITERS[f"uint{bits}"], WRITERS[f"int{bits}"] = number(bits // 8), number(bits // 8, True)


def written(kind: Kind, text: str) -> bytes:
    """The bytes of an option of this kind, from values separated by commas. `\\,` is a comma in a value."""
    texts = [part.replace("\\,", ",").strip() for part in re.split(r"(?<!\\),", text)] if text.strip() else []
    types = kind.types
    if kind.again:
        types += types[-1:] * (len(texts) - len(types))
    if len(texts) != len(types):
        raise ValueError(f"{len(texts)} values instead of {len(types)}")
    if any(each not in WRITERS for each in types):
        raise ValueError("unsupported types: " + ", ".join(types))
    return b"".join(WRITERS[each](part) for each, part in zip(types, texts))
