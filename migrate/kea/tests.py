"""Converts class tests of Kea's configurations to the language of kdhcp (for ../from_kea.py)."""
import re

TOKEN = re.compile(r"\s*('[^'\n]*'|0[xX][0-9a-fA-F]+|\d+(?:\.\d+){3}|-?\d+|[A-Za-z_][\w-]*|==|[][(),.+])")
WORDS = (
    "not and or substring all concat ifelse hexstring lcase ucase uint32totext option relay4 pkt4 pkt member".split()
)
BEHIND_DOT = {
    "]": ["hex", "exists"],
    "pkt4": "mac hlen htype ciaddr giaddr yiaddr siaddr msgtype transid".split(),
    "pkt": ["len"],
}


def test_of(text: str, classes: set, named: dict) -> str:
    """A class test with codes instead of option names. Raises ValueError if it has an unsupported word.

    This checks only words and names: `./kdhcp expr TEXT` parses and types the test.
    """
    out, at, one, two = "", 0, "", ""
    while text[at:].strip():
        match = TOKEN.match(text, at)
        if match is None:
            raise ValueError(f"the test is malformed at `{text[at:].strip()[:12]}`")
        token, out, at = match.group(1), out + match.group(0), match.end()
        if one == "[" and two == "option" and token in named:
            out = out[: len(out) - len(token)] + str(named[token].code)
        elif one == "(" and two == "member":
            if token[1:-1] not in classes and not token.startswith("'VENDOR_CLASS_"):
                raise ValueError(f"the test refers to {token}, which is not an earlier class")
        elif token not in (BEHIND_DOT.get(two, []) if one == "." else WORDS) and re.match("[A-Za-z_]", token):
            raise ValueError(f"the test has the unsupported word `{token}`")
        one, two = token, one
    if len(out.encode()) > 4096:
        raise ValueError("the test has more than 4,096 bytes")
    return out
