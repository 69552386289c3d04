#!/usr/bin/env python3
"""Checks the expected lines of cases of `kdhcp replay` and `kdhcp leases` with judge.py.

    cases.py [FILE ..]     files of cases (cases/README.md), by default cases/leases_*.cases

It prints each case that differs from judge.py, and the counts. It skips cases of other commands, and cases that expect a
fault of arguments, files or a configuration. The exit status is 1 if a case differs.
"""
import glob
import json
import os
import re
import sys

import judge

DATA = os.path.join(judge.HERE, "..", "cases")


def expanded(names, text):
    """A text with its names expanded."""

    def text_of(reference):
        name, *bounds = reference.group(1).split(":")
        start = int(bounds[0]) if bounds else 0
        end = start + int(bounds[1]) if len(bounds) > 1 else None
        return names[name][start:end]

    return re.sub(r"\$\{([^}]*)\}", text_of, text)


def words_of(names, text):
    """The words of a line. A quoted text is one word."""
    return [expanded(names, word.replace('"', "")) for word in re.findall(r'(?:"[^"]*"|[^ "])+', text)]


def define(names, line):
    """Takes a line that gives a text a name."""
    name, _, *rest = words_of(names, line)
    names[name] = rest[0] if len(rest) == 1 else int(rest[0]) * rest[2]


def include(names, path):
    """Takes the names of a file of DATA."""
    with open(os.path.join(DATA, path), encoding="utf-8") as file:
        for line in file.read().splitlines():
            if line and not line.startswith("#"):
                define(names, line)


def cases(lines):
    """The cases of a file: line, words, remark, configuration or None, events, expected lines, expected fault."""
    names, files, file, case, remark = {}, {}, None, None, []
    for count, line in enumerate(lines, 1):
        text = line.rstrip("\n")
        if case is not None and (text == "" or text.startswith("$ kdhcp")):
            yield case
            case = None
        if text.startswith("$ kdhcp"):
            words = text.replace("=", " ").split(" ")[2:]
            config = files.get(words[words.index("--config") + 1]) if "--config" in words else None
            case = {"line": count, "words": words, "config": config, "events": [], "wanted": [], "fault": []}
            case["remark"] = remark
            remark = []
        elif text == "":
            continue
        elif case is not None and text[0] in "<!?":
            kind = {"<": "events", "!": "fault", "?": "status"}[text[0]]
            case.setdefault(kind, []).append(expanded(names, text[2:]))
        elif case is not None:
            case["wanted"].append(expanded(names, text))
        elif text.startswith("#"):
            remark.append(text)
        elif text.startswith("@ "):
            file = text[2:]
            files[file] = ""
        elif text.startswith("| "):
            files[file] += expanded(names, text[2:]) + "\n"
        elif text.startswith("include "):
            include(names, expanded(names, text[8:]))
        else:
            define(names, text)
    if case is not None:
        yield case


def word_behind(words, flag):
    return words[words.index(flag) + 1] if flag in words else None


def is_judged(case):
    """Whether a case is of `replay` or `leases`, with no faults other than those of times and lines."""
    numbers = [fault.split(" ")[1] for fault in case["fault"]]
    return case["words"][:1] in (["replay"], ["leases"]) and all(number in ("90", "96", "97") for number in numbers)


def judged(case, stores):
    """The lines and the fault of judge.py for a case. The rows of a store are kept for the next case that names it."""
    store = word_behind(case["words"], "--store")
    rows = stores.get(store, judge.Rows())
    if case["words"][0] == "leases":
        moment = int(word_behind(case["words"], "--at"))
        if moment >= judge.END_OF_TIME:
            return [], ["fault 90 MomentTooLarge"]
        return judge.lease_lines(rows, moment), []
    root = json.loads(case["config"])["Dhcp4"] if case["config"] else judge.BUILT_IN
    out, rows, fault = judge.replay(root, case["events"], rows)
    if store is not None:
        stores[store] = rows
    return out, [fault] if fault else []


def main():
    paths = sys.argv[1:] or sorted(glob.glob(f"{DATA}/leases_*.cases"))
    well, badly = 0, 0
    for path in paths:
        stores = {}
        with open(path, encoding="utf-8") as file:
            for case in cases(list(file)):
                if not is_judged(case):
                    continue
                out, fault = judged(case, stores)
                if out == case["wanted"] and fault == case["fault"]:
                    well += 1
                    continue
                badly += 1
                print(f"{os.path.basename(path)}:{case['line']}", *case["remark"], sep="\n")
                for event, wanted, came in zip(case["events"], case["wanted"], out):
                    if wanted != came:
                        print(f"event    {event}\nexpected {wanted}\njudge    {came}")
                if len(out) != len(case["wanted"]) or fault != case["fault"]:
                    print(f"{len(case['wanted'])} lines expected, {len(out)} from the judge; {case['fault']} {fault}")
    print(f"{well} as judged, {badly} not")
    sys.exit(badly > 0)


if __name__ == "__main__":
    main()
