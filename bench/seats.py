#!/usr/bin/env python3
"""Times transactions of many seats, and ticks at which many transactions are due or none is, at nodes on machines in memory, in one run.

Usage: bench/seats.py [ROUNDS]
       bench/seats.py --count

`atx replay` plays schedules over nodes that serve, and prints what they did. First one transaction with 1, 8, 64 and 512 durable
participants, from its begin to the last Committed: `messages` is how many were delivered, `growth` how its time grew over
that of the row before it, beside how its seats grew. Then a tick at a coordinator with 1, 128 and 1,024 live transactions,
none of which is due, and all of which are, since they expire: the time of the tick alone, which is what a run with it takes
more than one without it. Each time is the least of ROUNDS runs (default 5), net of that of a process's start. The program is the
built `atx`, or another one in ATX.

With --count it counts the instructions of one run of each, by valgrind, in place of times: what else the machine does
changes nothing of them.
"""
import os
import re
import subprocess
import sys
import time

TOP = os.path.dirname(os.path.dirname(os.path.abspath(__file__)))
ATX = os.environ.get("ATX", os.path.join(TOP, "crates", "atx", "out", "atx"))
SEATS = (1, 8, 64, 512)
LIVE = (1, 128, 1024)


def voted(seats):
    """A transaction with so many participants, which are on six nodes."""
    works = [f"work 1 1-1 {3 + number % 6} d prepared" for number in range(seats)]
    flushes = ["flush 10000"] * 2
    return ["nodes 8", "begin 1 2 4000000000", *flushes, *works, *flushes, "commit 1 1-1", *flushes]


def held(live, ms, ticked):
    """So many transactions at node 2, each of which expires after so many milliseconds; then node 2 is ticked by these."""
    begins = [f"begin {1 if node == 0 else node + 2} 2 {ms}" for number in range(live) for node in [number % 7]]
    return ["nodes 8", *begins, *["flush 10000"] * 2, *(f"tick 2 {by}" for by in ticked)]


def run(lines):
    text = "\n".join(lines) + "\n"
    start = time.perf_counter()
    done = subprocess.run([ATX, "replay"], input=text.encode(), capture_output=True, check=True)
    return time.perf_counter() - start, done.stdout


def least(rounds, lines):
    return min(run(lines)[0] for _ in range(rounds))


def instructions(lines):
    """How many instructions a run takes, in millions."""
    words = ["valgrind", "--tool=callgrind", f"--callgrind-out-file={os.devnull}", ATX, "replay"]
    done = subprocess.run(words, input=("\n".join(lines) + "\n").encode(), capture_output=True, check=True)
    return int(re.search(rb"Collected : (\d+)", done.stderr).group(1)) / 1e6


def count():
    started = instructions(["nodes 1"])
    print(f"{'seats':<8}{'millions':>10}{'a seat':>10}{'growth':>10}{'of seats':>10}")
    before = None
    for seats in SEATS:
        spent = instructions(voted(seats)) - started
        growth, of = ("", "") if before is None else (f"{spent / before[1]:.2f}", f"{seats / before[0]:.2f}")
        print(f"{seats:<8}{spent:>10.1f}{spent / seats:>10.2f}{growth:>10}{of:>10}")
        before = seats, spent
    print(f"{'live':<8}{'due':>10}{'millions':>10}{'an item':>10}")
    for live in LIVE:
        for due, ms in (("none", 4_000_000_000), ("all", 60_000)):
            spent = instructions(held(live, ms, [70_000])) - instructions(held(live, ms, []))
            print(f"{live:<8}{due:>10}{spent:>10.2f}{spent / live:>10.4f}")


def main():
    if sys.argv[1:] == ["--count"]:
        return count()
    rounds = int(sys.argv[1]) if len(sys.argv) > 1 else 5
    if not os.access(ATX, os.X_OK):
        sys.exit("bench: build the program first: ./atx --version")
    started = least(rounds, ["nodes 1"])
    print(f"{'seats':<8}{'messages':>10}{'ms':>10}{'us a seat':>12}{'growth':>10}{'of seats':>10}")
    before = None
    for seats in SEATS:
        lines = voted(seats)
        spent = max(least(rounds, lines) - started, 1e-6)
        said = run(lines)[1]
        committed = said.count(b" d committed\n")
        if committed != seats:
            sys.exit(f"bench: {committed} of {seats} participants committed")
        growth = "" if before is None else f"{spent / before[1]:.2f}"
        of = "" if before is None else f"{seats / before[0]:.2f}"
        messages = sum(line.startswith(b"deliver ") for line in said.splitlines())
        print(f"{seats:<8}{messages:>10}{spent * 1e3:>10.2f}{spent / seats * 1e6:>12.1f}{growth:>10}{of:>10}")
        before = seats, spent
    print(f"{'live':<8}{'due':>10}{'ms':>10}{'us an item':>12}")
    for live in LIVE:
        for due, ms in (("none", 4_000_000_000), ("all", 60_000)):
            with_it, without = held(live, ms, [70_000]), held(live, ms, [])
            spent = max(least(rounds, with_it) - least(rounds, without), 1e-6)
            print(f"{live:<8}{due:>10}{spent * 1e3:>10.2f}{spent / live * 1e6:>12.2f}")


main()
