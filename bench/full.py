#!/usr/bin/env python3
"""Shows what atx does with a journal that is as long as a journal may be, 4,294,967,295 bytes a file.

python3 bench/full.py FOLDER

It writes two journals into FOLDER, one after the other, and starts a coordinator on each: one to which the record of a
start can just be added, and one that is a byte too long for it. The first comes up (status 0); the second ends with 12
and is as it was. FOLDER needs 5 GiB, and a node holds a journal's bytes while it reads them, so that some 12 GiB of
memory are wanted."""
import os
import subprocess
import sys

TOP = os.path.dirname(os.path.dirname(os.path.abspath(__file__)))
MOST = 2**32 - 1
START = 10  # gate, length, tag, incarnation
MARK = b"\x01\x00\x00\x00\x05\x0b\x00\x00\x00\x00"
LISTEN = "127.0.0.1:9017"


def text(value):
    return len(value).to_bytes(2, "big") + value


def decided(addresses):
    """The frame of a decision: an open gate, its length, and root 1-1 with a seat for each address."""
    seats = b"".join(number.to_bytes(2, "big") + text(b"h" * length) + text(b"") for number, length in enumerate(addresses, 1))
    body = b"\x06" + (1).to_bytes(4, "big") * 2 + len(addresses).to_bytes(2, "big") + seats
    return b"\x01" + len(body).to_bytes(4, "big") + body


def write(path, size):
    """A journal of so many bytes: its mark, decisions of one root, and a shut gate."""
    whole = decided([2048] * 512)
    room = size - len(MARK) - 1
    count = room // len(whole) - 1
    rest = room - count * len(whole)
    first = decided([2048] * 511)
    # two smaller ones fill what is left: the last address is as long as it takes
    second = rest - len(first)
    seats = max(1, -(-(second - 16) // 2054))
    short = second - 16 - 6 * seats
    lengths = [short // seats + (at < short % seats) for at in range(seats)]
    last = decided(lengths)
    with open(path, "wb") as file:
        file.write(MARK)
        for _ in range(count):
            file.write(whole)
        file.write(first + last + b"\x00")
    found = os.path.getsize(path)
    if found != size:
        sys.exit(f"the journal has {found} bytes, not {size}")


def main():
    if len(sys.argv) != 2:
        sys.exit(__doc__)
    path = os.path.join(sys.argv[1], "full.journal")
    right = True
    for size, status in ((MOST - START, 0), (MOST - START + 1, 12)):
        try:
            write(path, size)
            words = [f"{TOP}/atx", "coordinator", "--listen", LISTEN, "--journal", path, "--turns", "0"]
            ran = subprocess.run(words, stdin=subprocess.DEVNULL, capture_output=True, text=True)
            grown = os.path.getsize(path) - size
        finally:
            for name in (path, path + ".1"):
                if os.path.exists(name):
                    os.remove(name)
        print(f"{size} bytes: status {ran.returncode}, printed {ran.stdout!r}, {grown} bytes more")
        right = right and ran.returncode == status and grown == (START if status == 0 else 0)
    sys.exit(0 if right else 1)


if __name__ == "__main__":
    main()
