#!/usr/bin/env python3
"""Tells what the gate cost: seconds of processor time (user and system) that the proofs, the tests and the edits of each crate took.

It is started beside the gate with the number of the process whose proofs count, looks once a second, and prints its table when it is told
to end. A proof that ends between two looks loses at most its last second.
"""

import os
import re
import signal
import sys
import time

KINDS = ("proof", "tests", "edits")
TICKS = os.sysconf("SC_CLK_TCK")


def read(path):
    try:
        with open(path, "rb") as it:
            return it.read()
    except OSError:
        return b""


def processes():
    """Each process as (number, parent, seconds, words)."""
    for number in filter(str.isdigit, os.listdir("/proc")):
        stat = read(f"/proc/{number}/stat").rpartition(b")")[2].split()
        if len(stat) > 12:
            words = read(f"/proc/{number}/cmdline").decode(errors="replace").split("\0")
            yield int(number), int(stat[1]), (int(stat[11]) + int(stat[12])) / TICKS, words


def work_of(words):
    """The crate that a process of the checker works on, and whether it proves it, proves its tests, or tries an edit; or None."""
    if not words[0].endswith("/rattle") or "--crate-name" not in words:
        return None
    crate = words[words.index("--crate-name") + 1]
    kind = "edits" if words[1] == "check" else "tests" if "--test" in words else "proof"
    return crate, kind


def look(top, seen):
    """Notes what each process below the given one has taken so far; one that the checker started counts for the same crate."""
    found = {number: (parent, seconds, words) for number, parent, seconds, words in processes()}
    for number, (_, seconds, _) in found.items():
        above, work = number, None
        while above in found and above != top:
            work = work or work_of(found[above][2])
            above = found[above][0]
        if work and above == top:
            seen[number, work] = seconds


def table(seen):
    sums = {}
    for (_, (crate, kind)), seconds in seen.items():
        sums.setdefault(crate, dict.fromkeys(KINDS, 0.0))[kind] += seconds
    yield f"{'crate':<18}{'proof':>8}{'tests':>8}{'edits':>8}{'together':>10}"
    for crate, row in sorted(sums.items()):
        yield f"{crate:<18}" + "".join(f"{row[it]:>8.0f}" for it in KINDS) + f"{sum(row.values()):>10.0f}"
    whole = {it: sum(row[it] for row in sums.values()) for it in KINDS}
    yield f"{'together':<18}" + "".join(f"{whole[it]:>8.0f}" for it in KINDS) + f"{sum(whole.values()):>10.0f}"


def main():
    top, seen = int(sys.argv[1]), {}

    def end(*_):
        if seen:
            print("Seconds of processor time that this run of the gate took; what an earlier run has kept takes none:")
            print(*table(seen), sep="\n", flush=True)
        sys.exit(0)

    signal.signal(signal.SIGTERM, end)
    while re.match(r"\d", read(f"/proc/{top}/stat").decode()):
        look(top, seen)
        time.sleep(1)
    end()


if __name__ == "__main__":
    main()
