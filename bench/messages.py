#!/usr/bin/env python3
"""Times decoding and encoding of one message in a loop, beside parsers of the same envelope, in one run.

Usage: bench/messages.py [COUNT [ROUNDS]]

The program `message_loop` decodes an envelope COUNT times (default 100,000), and encodes its message as often. Beside it
Python's expat builds the same tree as often, with expanded names, attributes and texts, and so does lxml where it is
installed. Each figure is the least of ROUNDS runs (default 5), net of a run of no rounds; ratios are those of one run.
"""
import os
import subprocess
import sys

try:
    from lxml import etree
except ImportError:
    etree = None

from envelopes import envelope, least
from trees import tree_of

TOP = os.path.dirname(os.path.dirname(os.path.abspath(__file__)))
PROGRAM = os.environ.get("MESSAGE_LOOP", os.path.join(TOP, "crates", "message_loop", "out", "message_loop"))
BYTES = 600


def looped(words, data):
    def call():
        subprocess.run([PROGRAM] + words, input=data, stdout=subprocess.DEVNULL, check=True)

    return call


def again(count, call, data):
    def run():
        for _ in range(count):
            call(data)

    return run


def main():
    count = int(sys.argv[1]) if len(sys.argv) > 1 else 100_000
    rounds = int(sys.argv[2]) if len(sys.argv) > 2 else 5
    if not os.access(PROGRAM, os.X_OK):
        sys.exit("bench: build the program first: rt run in crates/message_loop")
    short = len(envelope(""))
    data = envelope("x" * max(BYTES - short, 0)).encode()
    times = {}
    for word in ("decode", "encode"):
        none = least(rounds, looped([word, "0"], data))
        times[word] = least(rounds, looped([word, str(count)], data)) - none
    both = least(rounds, looped([str(count)], data)) - least(rounds, looped(["0"], data))
    times["decode and encode"] = both
    times["expat, a tree"] = least(rounds, again(count, tree_of, data))
    if etree is not None:
        times["lxml, a tree"] = least(rounds, again(count, etree.fromstring, data))
    else:
        print("lxml isn't installed: expat alone")
    print(f"{len(data)} bytes, {count} times")
    print(f"{'':<20}{'us each':>10}{'MB/s':>8}{'to expat':>10}")
    for name, spent in times.items():
        each = spent / count
        print(f"{name:<20}{each * 1e6:>10.2f}{len(data) / each / 1e6:>8.1f}{spent / times['expat, a tree']:>10.2f}")


if __name__ == "__main__":
    main()
