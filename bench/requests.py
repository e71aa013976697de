#!/usr/bin/env python3
"""Times taking one request in a loop, beside Python's http.server on the same bytes, in one run.

Usage: bench/requests.py [COUNT [ROUNDS]]

The program `request_loop` takes a request of 600 bytes COUNT times (default 100,000), of a machine in memory; beside it
http.server parses the same bytes as often, by BaseHTTPRequestHandler over a BytesIO, and reads the body. Heads of up to
8,000 bytes are then taken a fiftieth as often, all bytes at once and byte by byte: the time of both grows as the bytes
do. Each figure is the least of ROUNDS runs (default 5), net of a run of no rounds; ratios are those of one run.
"""
import io
import os
import subprocess
import sys
from http.server import BaseHTTPRequestHandler

from envelopes import least

TOP = os.path.dirname(os.path.dirname(os.path.abspath(__file__)))
PROGRAM = os.environ.get("REQUEST_LOOP", os.path.join(TOP, "crates", "request_loop", "out", "request_loop"))
PREPARED = "http://docs.oasis-open.org/ws-tx/wsat/2006/06/Prepared"
BYTES = 600
LINE = "POST /c/d/1-1/1 HTTP/1.1\r\nHost: n2.example\r\n"
END = "Content-Length: 0\r\n\r\n"


def posted(size):
    """A request of so many bytes, with the fields of a post of an envelope."""
    body = size
    while True:
        head = (
            f'{LINE}Content-Type: text/xml; charset=utf-8\r\nSOAPAction: "{PREPARED}"\r\n'
            f"Content-Length: {body}\r\nConnection: close\r\n\r\n"
        )
        if len(head) + body <= size:
            return (head + "x" * body).encode()
        body -= 1


def one_field(size):
    """A head of so many bytes with one long field."""
    return (LINE + "a: " + "b" * (size - len(LINE) - len(END) - 5) + "\r\n" + END).encode()


def short_fields(size):
    """A head of about so many bytes, all in short lines."""
    return (LINE + "a:b\r\n" * ((size - len(LINE) - len(END)) // 5) + END).encode()


def empty_lines(size):
    """A head of about so many bytes behind empty lines, which are passed over."""
    return ("\r\n" * ((size - len(LINE) - len(END)) // 2) + LINE + END).encode()


HEADS = [("one long field", one_field), ("short fields", short_fields), ("empty lines first", empty_lines)]


class Handler(BaseHTTPRequestHandler):
    """Reads the request that the bytes are."""

    def __init__(self, data):
        self.rfile = io.BytesIO(data)
        self.wfile = io.BytesIO()
        self.raw_requestline = self.rfile.readline(65537)
        if not self.parse_request():
            raise ValueError("not taken")
        self.body = self.rfile.read(int(self.headers["Content-Length"]))


def looped(words, data):
    def call():
        answer = subprocess.run([PROGRAM] + words, input=data, stdout=subprocess.PIPE, check=True)
        if answer.stdout != f"taken {words[0]} of {words[0]}\n".encode():
            sys.exit(f"bench: {answer.stdout}")

    return call


def served(count, data):
    def call():
        for _ in range(count):
            Handler(data)

    return call


def taken(count, rounds, data, most):
    """The seconds of one request, of which so many bytes come at once."""
    none = least(rounds, looped(["0", most], data))
    return (least(rounds, looped([str(count), most], data)) - none) / count


def print_requests(count, rounds):
    data = posted(BYTES)
    times = {"at once": taken(count, rounds, data, "0"), "byte by byte": taken(count, rounds, data, "1")}
    times["http.server"] = least(rounds, served(count, data)) / count
    print(f"{len(data)} bytes, {count} times")
    print(f"{'':<16}{'us each':>10}{'a second':>12}{'to http.server':>16}")
    for name, each in times.items():
        print(f"{name:<16}{each * 1e6:>10.2f}{1 / each:>12.0f}{each / times['http.server']:>16.3f}")


def print_heads(count, rounds):
    print(f"{'a head':<24}{'bytes':>8}{'us at once':>12}{'byte by byte':>14}{'ratio':>8}{'ns a byte':>11}")
    for name, head in HEADS:
        for size in (2000, 4000, 8000):
            data = head(size)
            whole = taken(count, rounds, data, "0")
            single = taken(count, rounds, data, "1")
            print(
                f"{name:<24}{len(data):>8}{whole * 1e6:>12.1f}{single * 1e6:>14.1f}{single / whole:>8.1f}"
                f"{single / len(data) * 1e9:>11.1f}"
            )


def main():
    count = int(sys.argv[1]) if len(sys.argv) > 1 else 100_000
    rounds = int(sys.argv[2]) if len(sys.argv) > 2 else 5
    if not os.access(PROGRAM, os.X_OK):
        sys.exit("bench: build the program first: rt run in crates/request_loop")
    print_requests(count, rounds)
    print_heads(max(count // 50, 1), rounds)


if __name__ == "__main__":
    main()
