#!/usr/bin/env python3
"""Times `atx replay` on schedules of many transactions, in one run; or compares the reports of two builds, and times both.

Usage: bench/replay.py [ROUNDS]
       bench/replay.py --beside OTHER [COUNT] [SEED]

Each time is the least of ROUNDS runs (default 5), without that of a process's start, which is measured by `nodes 1`
alone. `lines` and `messages` are a second's; the last column is the most memory that any process held so far, in MB.

With --beside another build of `atx`, as that of an older checkout, replays the same: what `bench/schedules.py` has of the repository
and of a journal that is written anew, and COUNT (1,000) random ones from SEED (1) on, each of these plain, with `--settle`, with `--bytes` or with
both, in turn. What is printed and the status must be the same to the byte; a schedule that comes out otherwise is printed with as few of its lines
as show it, and the script ends with status 1. Then each row of the table has the seconds of the one and of the other.

The program is the built `atx`, or another one in ATX.
"""
import os
import resource
import subprocess
import sys
import time

from schedules import grown, of_the_repository, random_schedule

TOP = os.path.dirname(os.path.dirname(os.path.abspath(__file__)))
ATX = os.environ.get("ATX", os.path.join(TOP, "crates", "atx", "out", "atx"))
ASKED = [[], ["--settle"], ["--bytes"], ["--settle", "--bytes"]]


def transactions(count, nodes):
    """Transactions of one durable participant each, one after another, over all nodes in turn."""
    for number in range(count):
        initiator = number % nodes
        coordinator = (number + 1) % nodes + 1
        service = (number + 2) % nodes + 1
        activity = f"1-{ids(number, nodes)}"
        yield f"begin {initiator + 1} {coordinator} 60000"
        yield "flush 99"
        yield f"work {initiator + 1} {activity} {service} d prepared"
        yield "flush 99"
        yield f"commit {initiator + 1} {activity}"
        yield "flush 99"


def ids(number, nodes):
    """The counter of the activity that this transaction begins: each node draws one id for each item that it makes."""
    drawn = 0
    initiator = number % nodes
    for earlier in range(number):
        drawn += (earlier % nodes == initiator) + ((earlier + 1) % nodes == initiator) + ((earlier + 2) % nodes == initiator)
    return drawn + 1


def schedule(count, nodes, most):
    lines = [f"nodes {nodes}", *transactions(count, nodes)]
    return "\n".join(lines[:most]) + "\n"


def at_once(each, flushes=2):
    """So many transactions of each of four initiators, all of them at one coordinator: all begin, then all work, then all commit."""
    begins = [f"begin {initiator} 5 4000000000" for initiator in range(1, 5) for _ in range(each)]
    works = [f"work {initiator} 1-{number} {6 + number % 3} d prepared" for initiator in range(1, 5) for number in range(1, each + 1)]
    commits = [f"commit {initiator} 1-{number}" for initiator in range(1, 5) for number in range(1, each + 1)]
    delivered = ["flush 10000"] * 2
    return "\n".join(["nodes 8", *begins, *delivered, *works, *delivered, *commits, *delivered[:flushes]]) + "\n"


# What is timed: a name, a schedule, and how it is replayed.
TIMED = [
    ("100 transactions, 3 nodes", schedule(100, 3, 10_000), []),
    ("1,000 transactions, 3 nodes", schedule(1_000, 3, 10_000), []),
    ("10,000 lines, 8 nodes", schedule(1_667, 8, 10_000), []),
    ("100 at once, 8 nodes", at_once(25), []),
    ("1,000 at once, 8 nodes", at_once(250), []),
    ("1,000 at once, settled", at_once(250, 0), ["--settle"]),
]


def replayed(program, text, asked):
    """The status and what is printed."""
    done = subprocess.run([program, "replay", *asked], input=text.encode(), stdout=subprocess.PIPE, stderr=subprocess.DEVNULL, check=False)
    return done.returncode, done.stdout


def run(program, text, asked):
    """Seconds, and the last line of the report."""
    start = time.perf_counter()
    status, said = replayed(program, text, asked)
    spent = time.perf_counter() - start
    if status != 0:
        sys.exit(f"bench: {program} ended with {status}")
    return spent, said.decode().splitlines()[-1]


def fewest(text, differs):
    """As few lines of a schedule as still differ: while one can be left out, it is."""
    lines, size = text.splitlines(), 64
    while size:
        at = 1
        while at < len(lines):
            less = lines[:at] + lines[at + size:]
            if differs("\n".join(less) + "\n"):
                lines = less
            else:
                at += size
        size //= 2
    return "\n".join(lines) + "\n"


def compare(other, name, text, asked):
    def differs(text):
        return replayed(ATX, text, asked) != replayed(other, text, asked)

    if differs(text):
        print(fewest(text, differs), end="")
        sys.exit(f"bench: {name} comes out otherwise with {asked}")


def compare_all(other, count, seed):
    fixed = [*of_the_repository(), *grown()]
    for number, text in enumerate(fixed):
        for asked in ASKED:
            compare(other, f"schedule {number}", text, asked)
    for number in range(seed, seed + count):
        compare(other, f"seed {number}", random_schedule(number), ASKED[number % 4])
    print(f"{len(fixed)} schedules in four ways each, and {count} random ones in one, come out the same")


def time_all(programs, rounds):
    names = ["seconds", "beside"][:len(programs)]
    print(f"{'schedule':<28}{'lines':>8}{'messages':>10}{''.join(f'{it:>10}' for it in names)}{'lines/s':>10}{'messages/s':>12}{'MB':>8}")
    started = [min(run(program, "nodes 1\n", [])[0] for _ in range(rounds)) for program in programs]
    for name, text, asked in TIMED:
        runs = [[run(program, text, asked) for program in programs] for _ in range(rounds)]
        spent = [max(min(it[place][0] for it in runs) - started[place], 1e-6) for place in range(len(programs))]
        last = runs[0][0][1]
        lines, messages = text.count("\n"), int(last.split()[2])
        memory = resource.getrusage(resource.RUSAGE_CHILDREN).ru_maxrss / 1024
        times = "".join(f"{it:>10.3f}" for it in spent)
        print(f"{name:<28}{lines:>8}{messages:>10}{times}{lines / spent[0]:>10.0f}{messages / spent[0]:>12.0f}{memory:>8.1f}")
        print(f"    {last}")


def main(words):
    if words[:1] == ["--beside"]:
        other, numbers = os.path.abspath(words[1]), [int(it) for it in words[2:]]
        compare_all(other, *(numbers + [1000, 1][len(numbers):]))
        return time_all([ATX, other], 5)
    return time_all([ATX], int(words[0]) if words else 5)


if __name__ == "__main__":
    main(sys.argv[1:])
