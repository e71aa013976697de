#!/usr/bin/env python3
"""Times appends to a journal on the disk beside SQLite's commits of one row of the same bytes, in one run.

Usage: bench/appends.py [COUNT [BYTES [ROUNDS [FOLDER]]]]

The program `append_loop` appends COUNT bodies (default 500) of BYTES bytes each (default 600). Beside it Python's sqlite3
inserts as many rows, each in a transaction of its own, with journal_mode=WAL and synchronous=FULL. Both work in a new
folder in FOLDER (default: that for temporary files), which should be on the disk that is meant. They run in turn, ROUNDS
times (default 9), each net of its least run of none. A disk's speed may change much from one second to the next, so the
best and the median are printed, and the ratio is the median of the ratios of single rounds. Where `strace` is
installed, the calls that sync and the bytes that are written are counted too, in runs of their own.
"""
import os
import re
import shutil
import sqlite3
import statistics
import subprocess
import sys
import tempfile
import time

TOP = os.path.dirname(os.path.dirname(os.path.abspath(__file__)))
PROGRAM = os.environ.get("APPEND_LOOP", os.path.join(TOP, "crates", "append_loop", "out", "append_loop"))
TRACED = 200
MARK = 10
CALL = re.compile(r"^(?:\d+ +)?(\w+)\(.*= (\d+)$")


def commit_rows(name, count, size):
    """What the child does: rows of that many bytes, one a transaction."""
    base = sqlite3.connect(name, isolation_level=None)
    base.execute("PRAGMA journal_mode=WAL")
    base.execute("PRAGMA synchronous=FULL")
    base.execute("CREATE TABLE bodies (body BLOB)")
    body = b"\1" * size
    for _ in range(count):
        base.execute("INSERT INTO bodies VALUES (?)", (body,))
    print(base.execute("SELECT count(*) FROM bodies").fetchone()[0])


def appending(name, count, size):
    return [PROGRAM, name, str(count), str(size)]


def committing(name, count, size):
    return [sys.executable, os.path.abspath(__file__), "--commit", name, str(count), str(size)]


SIDES = {"append_loop": appending, "sqlite3": committing}


def run(words, count):
    """The seconds that it takes, once it says that all were done."""
    start = time.perf_counter()
    done = subprocess.run(words, capture_output=True)
    spent = time.perf_counter() - start
    if done.returncode != 0 or done.stdout.strip() != str(count).encode():
        sys.exit(f"bench: {words[0]} ended with status {done.returncode}: {done.stdout.decode()}{done.stderr.decode()}")
    return spent


def timed(folder, count, size, rounds):
    """The seconds of each side in each round, net of a start."""
    spent = {(side, n): [] for side in SIDES for n in (0, count)}
    for number in range(rounds):
        for side, n in spent:
            name = os.path.join(folder, f"{side}-{n}-{number}")
            spent[side, n].append(run(SIDES[side](name, n, size), n))
            if side == "append_loop":
                check_size(name, n, size)
    return {side: [it - min(spent[side, 0]) for it in spent[side, count]] for side in SIDES}


def check_size(name, count, size):
    """A mark, the bodies, and the gate behind them."""
    wanted = MARK + count * (size + 5) + 1
    if os.path.getsize(name) != wanted:
        sys.exit(f"bench: the journal has {os.path.getsize(name)} bytes, not {wanted}")


def traced(folder, side, count, size):
    """The calls that sync and the bytes that are written in a run, each over all files."""
    log = os.path.join(folder, f"{side}-{count}.trace")
    name = os.path.join(folder, f"{side}-{count}-traced")
    words = ["strace", "-f", "-qq", "-e", "trace=fsync,fdatasync,write,pwrite64", "-s", "0", "-o", log]
    run(words + SIDES[side](name, count, size), count)
    syncs, written = 0, 0
    with open(log, encoding="utf-8", errors="replace") as lines:
        for line in lines:
            call = CALL.match(line)
            if call is not None and call.group(1) in ("fsync", "fdatasync"):
                syncs += 1
            elif call is not None:
                written += int(call.group(2))
    return syncs, written


def report_traces(folder, size):
    print(f"{'under strace':<14}{'syncs each':>12}{'bytes each':>12}{'to its frame':>14}")
    for side in SIDES:
        none = traced(folder, side, 0, size)
        some = traced(folder, side, TRACED, size)
        syncs = (some[0] - none[0]) / TRACED
        written = (some[1] - none[1]) / TRACED
        print(f"{side:<14}{syncs:>12.2f}{written:>12.1f}{written / (size + 5):>14.3f}")
        if side == "append_loop" and syncs > 2.05:
            sys.exit("bench: an append syncs more than twice")


def ratio(times, side):
    """How often this side is as fast as SQLite: the median over the rounds."""
    return statistics.median(other / own for own, other in zip(times[side], times["sqlite3"]))


def measure(folder, count, size, rounds):
    times = timed(folder, count, size, rounds)
    print(f"{size} bytes, {count} times, {rounds} rounds, in {folder}")
    print(f"{'a second':<14}{'best':>12}{'median':>12}{'to sqlite3':>14}")
    for side, spent in times.items():
        best, median = count / min(spent), count / statistics.median(spent)
        print(f"{side:<14}{best:>12.0f}{median:>12.0f}{ratio(times, side):>14.2f}")
    if shutil.which("strace") is None:
        print("strace isn't installed: no calls are counted")
    else:
        report_traces(folder, size)


def main():
    if sys.argv[1:2] == ["--commit"]:
        return commit_rows(sys.argv[2], int(sys.argv[3]), int(sys.argv[4]))
    count, size, rounds = (int(word) for word in (sys.argv[1:4] + ["500", "600", "9"][len(sys.argv[1:4]):]))
    if not os.access(PROGRAM, os.X_OK):
        sys.exit("bench: build the program first: rt run in crates/append_loop")
    folder = tempfile.mkdtemp(prefix="appends-", dir=sys.argv[4] if len(sys.argv) > 4 else None)
    try:
        measure(folder, count, size, rounds)
    finally:
        shutil.rmtree(folder)


if __name__ == "__main__":
    main()
