"""Proves the libraries of crates, or takes them from where an earlier run left them, for the scripts in this folder.

A library here holds the statements of its crate and not the proofs, as in the gate. Its folder out/rlib has a file that says
which files it was made from."""
import copy
import os
import re
import shutil
import tempfile
import time
from collections import namedtuple
from concurrent.futures import FIRST_COMPLETED, ThreadPoolExecutor, wait

import toolchain

ROW = re.compile(r"^\| (\w+) \| ([\d.]+) \|", re.M)
# The most processes that one crate gets: a crate of many functions gains little from more.
MOST_PROCESSES = 4
# The memory of a proof with one process, as a part of what `rt` reckons, and what each further process adds, as a part of
# that. Measured over 18 crates with one to four processes: 0.28 to 0.55 of what `rt` reckons for one.
SHARE_OF_MEMORY, MORE_MEMORY = 0.6, 0.1
# The minutes of proofs by which a chain of crates may be shorter than the longest and still count as one that others wait for.
SLACK = 2
# A proof that is running.
Running = namedtuple("Running", "crate needs began")


class NotProved(Exception):
    """A crate is not proved. The text is the prover's output."""


def minutes_of_proofs():
    """The processor minutes of each crate's proof, from docs/GATE.md if it is there."""
    try:
        with open(f"{toolchain.ROOT}/docs/GATE.md", encoding="utf-8") as page:
            return {name: float(minutes) for name, minutes in ROW.findall(page.read())}
    except FileNotFoundError:
        return {}


def stamp_of(rt, crate):
    """Checksums of the files of the crate and of those below it, and of the libraries of the crates below it."""
    below = [rt.rtlib.sum_of(f"{it.rlib}/format") for it in crate.below()]
    return "\n".join([crate.stamp(), *below])


def mark(rt, crate):
    """Records which files a library's statements were made from, for these scripts and for `rt check`."""
    room = os.path.dirname(crate.rlib)
    for name, text in ("statements", stamp_of(rt, crate)), ("stamp", crate.stamp()):
        with open(f"{room}/{name}", "w", encoding="utf-8") as it:
            it.write(text)


def is_current(rt, crate):
    """Whether the library in the crate's out/ was made from the current files. Statements fit only the libraries that they
    were made with; `rt check` judges a library with proofs."""
    made = rt.rtlib.text_of(f"{os.path.dirname(crate.rlib)}/statements")
    if made is None or not os.path.isdir(crate.rlib):
        return crate.is_built() or is_newer(crate)
    return made == stamp_of(rt, crate)


def is_newer(crate):
    """Whether the library in the crate's out/, with no note, is newer than all that it is made from, as the gate leaves it."""
    if not os.path.isfile(f"{crate.rlib}/format") or os.path.exists(f"{os.path.dirname(crate.rlib)}/stamp"):
        return False
    files = [f"{it.rlib}/format" for it in crate.below()]
    for it in [crate, *crate.below()]:
        files += [f"{at}/{name}" for part in ("src", "specs", "proofs") for at, _, names in os.walk(f"{it.folder}/{part}") for name in names]
    return max((os.path.getmtime(it) for it in files if os.path.exists(it)), default=0) <= os.path.getmtime(f"{crate.rlib}/format")


class NothingKept:
    """Stands for the store of a toolchain whose `rt ci` keeps nothing."""

    at = None

    def is_built(self, crate):
        """Notes nothing of the crate's library."""


def is_given(kept, crate):
    """Takes over the crate's library if the gate kept it beside the toolchain. Returns whether it did."""
    if not kept.at:
        return False
    key = kept.key(crate)
    if not os.path.isdir(kept.place(crate, False, key)):
        return False
    shutil.rmtree(os.path.dirname(crate.rlib), ignore_errors=True)
    return kept.give(crate, False, key)


def take_kept(rt, crates):
    """Of these crates, lowest first, those whose library is ready, by name: in out/, or else beside the toolchain."""
    ready, kept = {}, None
    for crate in crates:
        if not all(it.name in ready for it in crate.below()):
            continue
        if is_current(rt, crate):
            ready[crate.name] = crate
        else:
            if kept is None:
                kept = rt.Kept(crates) if hasattr(rt, "Kept") else NothingKept()
                for it in ready.values():
                    kept.is_built(it)
            if not is_given(kept, crate):
                continue
            ready[crate.name] = crate
        if not crate.is_built():
            mark(rt, crate)
        if kept is not None:
            kept.is_built(crate)
    return ready


def prove_library(rt, crate, jobs, is_waited_for):
    """Proves a crate with `jobs` processes and builds its library. No check keeps its work. If no longest chain waits for it,
    it leaves the processors to the crates that one waits for."""
    room = os.path.dirname(crate.rlib)
    shutil.rmtree(room, ignore_errors=True)
    os.makedirs(room)
    stamp = stamp_of(rt, crate)
    with tempfile.TemporaryFile("w+", errors="replace") as said:
        crate = copy.copy(crate)
        crate.out = said
        words = [*crate.words(["--jobs", str(jobs)], keeps=False), "--statements"]
        if crate.call(*([] if is_waited_for else ["nice"]), rt.rtlib.RATTLE, "build", *words, "-o", crate.rlib):
            said.seek(0)
            raise NotProved(said.read())
    if stamp_of(rt, crate) == stamp:
        mark(rt, crate)


def chains(crates, costs):
    """For each crate, the minutes of the longest chain of crates from it upwards, itself included."""
    found = {it.name: 0 for it in crates}
    for crate in reversed(crates):
        found[crate.name] += costs.get(crate.name, 1)
        for below in [it for it in crate.below() if it.name in found]:
            found[below.name] = max(found[below.name], found[crate.name])
    return found


def fitting(rt, crate, jobs, memory):
    """How many processes, of at most this many, a proof of the crate can have in this memory, but at least one; and the memory
    that they need."""
    needs = SHARE_OF_MEMORY * rt.need(crate)
    while jobs > 1 and needs * (1 + MORE_MEMORY * (jobs - 1)) > memory:
        jobs -= 1
    return jobs, needs * (1 + MORE_MEMORY * (jobs - 1))


def side_by_side(rt, crates, proved, tell):
    """Proves these crates, each as soon as those below it are proved, where `proved` names the libraries that are ready. If
    memory is free, each processor gets a crate, first the one that the longest chain waits for. A crate gets more processes only
    if there are fewer crates than processors, because two processes take more of the processors than one. Those whose chain is
    not nearly the longest take what the others leave. If there is no memory for a crate that a longest chain waits for, no other
    begins before it. Calls `tell` with each crate's name and seconds."""
    above = chains(crates, minutes_of_proofs())
    left, running, proved = sorted(crates, key=lambda it: -above[it.name]), {}, {*proved}
    lanes, memory = rt.processors(), 0.85 * rt.free()
    with ThreadPoolExecutor(lanes) as pool:
        while left or running:
            ready = [it for it in left if all(below.name in proved for below in it.below())]
            longest = max([above[it.name] for it in left] + [above[it.crate.name] for it in running.values()])
            for number, crate in enumerate(ready):
                idle = lanes - len(running) - (len(ready) - number - 1)
                if len(running) == lanes:
                    break
                is_waited_for = longest - above[crate.name] < SLACK
                free = memory - sum(it.needs for it in running.values())
                jobs, needs = fitting(rt, crate, max(1, min(MOST_PROCESSES, idle)), free)
                if needs > free and running:
                    if is_waited_for:
                        break
                    continue
                left.remove(crate)
                begun = pool.submit(prove_library, rt, crate, jobs, is_waited_for)
                running[begun] = Running(crate, needs, time.monotonic())
            for it in wait(running, return_when=FIRST_COMPLETED).done:
                ended = running.pop(it)
                it.result()
                proved.add(ended.crate.name)
                tell(ended.crate.name, time.monotonic() - ended.began)


def prepare(rt, crates, tell=lambda name, seconds: None, plan=lambda ready: None):
    """Puts the libraries of these crates, lowest first, into their out/. Calls `plan` with those that are ready, by name, and
    `tell` with each that is proved. Raises NotProved where one is not proved."""
    held = rt.rtlib.lock(crates)
    try:
        ready = take_kept(rt, crates)
        plan(ready)
        side_by_side(rt, [it for it in crates if it.name not in ready], ready, tell)
    finally:
        # `rt check` would wait for these locks.
        for it in held:
            os.close(it)
