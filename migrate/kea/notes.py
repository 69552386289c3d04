"""Reports what of a Kea configuration is left out, as lines with paths on standard error (for ../from_kea.py)."""
import sys
from typing import Callable, Optional

# Keys that no client notices.
ASIDE = set(
    "comment user-context interfaces-config lease-database loggers control-socket multi-threading sanity-checks"
    " server-tag dhcp-queue-control expired-leases-processing parked-packet-limit"
    " statistic-default-sample-count statistic-default-sample-age store-extended-info"
    " hostname-char-set hostname-char-replacement".split()
)
# Values that ask for what kdhcp does anyway.
SAME: dict = {
    "match-client-id": True,
    "echo-client-id": True,
    "reservations-global": False,
    "reservations-in-subnet": True,
    "reservation-mode": "all",
    "ip-reservations-unique": True,
    "only-if-required": False,
    "always-send": False,
    "never-send": False,
    "next-server": "0.0.0.0",
    "relay": {"ip-address": "0.0.0.0"},
    "dhcp4o6-port": 0,
    "cache-threshold": 0,
    "t1-percent": 0.5,
    "t2-percent": 0.875,
}
# Kea's own defaults: who writes them out asks for nothing. For a list its order does not matter.
DEFAULTS: dict = {
    "cache-threshold": 0.25,
    "host-reservation-identifiers": {"hw-address", "duid", "circuit-id", "client-id"},
    "authoritative": False,
    "calculate-tee-times": False,
    "offer-lifetime": 0,
    "stash-agent-options": False,
    "reservations-lookup-first": False,
    "reservations-out-of-pool": False,
    "early-global-reservations-lookup": False,
    "allocator": "iterative",
}


def is_default(key: str, value: object) -> bool:
    """Whether a key has the value that Kea takes where it is not there."""
    return key in DEFAULTS and DEFAULTS[key] == (set(value) if isinstance(value, list) else value)


class Notes:
    """Reports what is left out, and remembers whether a client may notice."""

    has_dropped = False

    def drop(self, path: str, why: str) -> None:
        self.has_dropped = True
        print(f"dropped {path}: {why}", file=sys.stderr)

    def set_aside(self, path: str, why: str) -> None:
        print(f"aside {path}: {why}", file=sys.stderr)

    def rest(self, holder: dict, path: str, taken: str, above: Optional[dict] = None) -> None:
        """Reports the keys of an object that are left out. A key with the same value as in `above` changes nothing."""
        for key, value in holder.items():
            where = f"{path}/{key}"
            if key in taken.split():
                continue
            if key in ASIDE:
                self.set_aside(where, "no client notices it")
            elif key.startswith("ddns-") or key == "dhcp-ddns" and not value.get("enable-updates"):
                self.set_aside(where, "no names are updated")
            elif key == "config-control" and value.get("config-databases"):
                self.drop(where, "what is in its databases is not read")
            elif key == "config-control":
                self.set_aside(where, "no client notices it")
            elif is_default(key, value):
                self.set_aside(where, "this is Kea's default")
            elif value in ("", [], {}) or SAME.get(key) == value or above is not None and above.get(key) == value:
                self.set_aside(where, "kdhcp does so anyway")
            else:
                self.drop(where, "not supported")

    def listed(self, holder: dict, key: str, path: str, most: int, read: Callable) -> dict:
        """The converted entries of a list, under its key, `most` of them at most."""
        found = [read(entry, f"{path}/{key}/{at}") for at, entry in enumerate(holder.get(key, []))]
        kept = [each for part in found for each in part]
        if len(kept) > most:
            self.drop(f"{path}/{key}", f"all after the first {most}")
        return {key: kept[:most]} if kept else {}

    def number(self, holder: dict, key: str, path: str, most: int) -> Optional[int]:
        """A whole number from 1 to `most`. A greater one counts as `most`."""
        value = holder.get(key)
        if value is None or 1 <= value <= most:
            return value
        self.drop(f"{path}/{key}", f"not from 1 to {most}")
        return most if value > most else None
