#!/usr/bin/env python3
"""Times `atx cell` and `atx check` beside xmllint and expat, on the same files, in one run.

Usage: bench/envelopes.py [ROUNDS]

Each figure is the least of ROUNDS runs (default 15). A process's start is taken out: of atx that of a faulty command
line, of xmllint that of a tiny file. expat parses in this process. The last two columns compare a command with its
run on the plain text: `net` without the start of a process, `whole` with it.
"""
import os
import shutil
import subprocess
import sys
import tempfile
import time
from xml.parsers import expat

TOP = os.path.dirname(os.path.dirname(os.path.abspath(__file__)))
PROGRAM = os.path.join(TOP, "crates", "atx", "out", "atx")
SOAP = "http://schemas.xmlsoap.org/soap/envelope/"
ADDRESSING = "http://www.w3.org/2005/08/addressing"
ATOMIC = "http://docs.oasis-open.org/ws-tx/wsat/2006/06"
SIZE = 61_440


def envelope(inside, attributes=""):
    """A durable Prepared with more inside its body's element, and more attributes on it."""
    return (
        f'<s:Envelope xmlns:s="{SOAP}" xmlns:a="{ADDRESSING}"><s:Header>'
        f"<a:To>http://n2.example/c/d/1-1/1</a:To><a:Action>{ATOMIC}/Prepared</a:Action>"
        f"<a:From><a:Address>http://n3.example/p/d/1-1</a:Address></a:From></s:Header>"
        f'<s:Body><w:Prepared xmlns:w="{ATOMIC}"{attributes}>{inside}</w:Prepared></s:Body></s:Envelope>'
    )


def parameters(inside, attributes=""):
    """A durable Prepared whose reply endpoint has these reference parameters."""
    return envelope("").replace(
        "</s:Header>",
        f"<a:ReplyTo><a:Address>http://n3.example/p/d/1-1</a:Address><a:ReferenceParameters{attributes}>{inside}"
        "</a:ReferenceParameters></a:ReplyTo></s:Header>",
    )


def repeated(item, end=""):
    number = 0
    parts = []
    length = len(envelope("")) + len(end)
    while True:
        piece = item(number)
        if length + len(piece) > SIZE:
            return "".join(parts) + end
        parts.append(piece)
        length += len(piece)
        number += 1


def inputs():
    yield "600 bytes", envelope("x" * (600 - len(envelope(""))))
    yield "plain: long text", envelope(repeated(lambda n: "plain text "))
    yield "siblings", envelope("<x/>" * 4000)
    yield "attributes", envelope("", repeated(lambda n: f' a{n}="v"'))
    yield "attributes, prefixed", envelope("", repeated(lambda n: f' xmlns:p{n}="u{n}" p{n}:a="v"'))
    yield "declarations", envelope("", repeated(lambda n: f' xmlns:p{n}="u"'))
    yield "declarations, used", envelope(
        "".join(f"<p{n}:x/>" for n in range(1500)), "".join(f' xmlns:p{n}="u"' for n in range(1500))
    )
    space = "u" * 32_000
    yield "long namespace, used", envelope("<p:x/>" * 4_000, f' xmlns:p="{space}"')
    yield "long default, used", envelope("<x/>" * 4_000, f' xmlns="{space}"')
    yield "long, in parameters", parameters("<p:x/>" * 4_000, f' xmlns:p="{space}"')
    yield "2 KB, in parameters", parameters("<p:x/>" * 4_000, f' xmlns:p="{space[:2_000]}"')
    pair = f' xmlns:p="{space[:8_000]}p" xmlns:q="{space[:8_000]}q"'
    yield "long, almost equal", envelope('<x p:a="" q:a=""/>' * 2_500, pair)
    yield "32 levels", envelope("<x>" * 29 + "deep " * 100 + "</x>" * 29)
    yield "too deep", envelope("<x>" * 8000 + "</x>" * 8000)
    yield "open levels", envelope("<x>" * 19_000)
    yield "line ends", envelope(repeated(lambda n: "a\r\nb\rc\td "))
    yield "references", envelope(repeated(lambda n: "&amp;&#65;&#x42; "))
    yield "sections", envelope(repeated(lambda n: "<![CDATA[a<b]]>"))
    yield "comments", envelope(repeated(lambda n: "<!-- x -->"))
    yield "references in a value", envelope("", " b='" + repeated(lambda n: "&quot;&#10;", "'"))


def least(rounds, call):
    best = None
    for _ in range(rounds):
        start = time.perf_counter()
        call()
        spent = time.perf_counter() - start
        best = spent if best is None else min(best, spent)
    return best


def process(words, path):
    def call():
        with open(path, "rb") as source:
            subprocess.run(words, stdin=source, stdout=subprocess.DEVNULL, stderr=subprocess.DEVNULL, check=False)

    return call


def parse(data):
    def call():
        try:
            expat.ParserCreate(namespace_separator=" ").Parse(data, True)
        except expat.ExpatError:
            pass

    return call


def table(command, lint, lint_start, atx_start, rounds, folder):
    print(f"atx {' '.join(command)}")
    print(f"{'input':<22}{'bytes':>7}{'atx ms':>9}{'MB/s':>8}{'xmllint ms':>12}{'expat ms':>10}{'to expat':>10}{'net':>8}{'whole':>8}")
    plain = None
    for name, text in inputs():
        data = text.encode()
        path = os.path.join(folder, "input.xml")
        with open(path, "wb") as file:
            file.write(data)
        whole = least(rounds, process([PROGRAM] + command, path))
        atx = max(whole - atx_start, 1e-6)
        xml = max(least(rounds, process([lint, "--noout", "--huge", "-"], path)) - lint_start, 1e-6) if lint else 0.0
        sax = least(rounds, parse(data))
        if name.startswith("plain"):
            plain = (atx, whole)
        net = f"{atx / plain[0]:.2f}" if plain else "-"
        run = f"{whole / plain[1]:.2f}" if plain else "-"
        print(
            f"{name:<22}{len(data):>7}{atx * 1e3:>9.2f}{len(data) / atx / 1e6:>8.1f}{xml * 1e3:>12.2f}{sax * 1e3:>10.2f}{atx / sax:>10.2f}{net:>8}{run:>8}"
        )


def main():
    rounds = int(sys.argv[1]) if len(sys.argv) > 1 else 15
    if not os.access(PROGRAM, os.X_OK):
        sys.exit("bench: build the program first: ./atx cell --state None < examples/prepared.xml")
    lint = shutil.which("xmllint")
    with tempfile.TemporaryDirectory() as folder:
        tiny = os.path.join(folder, "tiny.xml")
        with open(tiny, "w") as file:
            file.write("<a/>")
        atx_start = least(rounds, process([PROGRAM], tiny))
        lint_start = least(rounds, process([lint, "--noout", "--huge", "-"], tiny)) if lint else 0.0
        print(f"start of a process: atx {atx_start * 1e3:.2f} ms, xmllint {lint_start * 1e3:.2f} ms")
        for command in (["cell", "--state", "None"], ["check"]):
            table(command, lint, lint_start, atx_start, rounds, folder)


if __name__ == "__main__":
    main()
