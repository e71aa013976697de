#!/usr/bin/env python3
"""Schedules for `atx replay`: random ones, those of the repository, and some of a journal that is written anew.

    bench/schedules.py [SEED]

prints the random schedule of SEED (1), with every word of the language. `bench/replay.py` takes all of them.
"""
import os
import random
import re
import sys

TOP = os.path.dirname(os.path.dirname(os.path.abspath(__file__)))

WSA = "http://www.w3.org/2005/08/addressing"
AT = "http://docs.oasis-open.org/ws-tx/wsat/2006/06"

# Bytes that a node refuses; the clients of three wait for the interim line.
REFUSED = [
    b"",
    b"\0",
    b"GET / HTTP/1.1\r\nHost: a\r\n\r\n",
    b"POST / HTTP/1.1\r\nHost: a\r\n\r\n",
    b"POST / HTTP/1.1\r\nHost: a\r\nContent-Length: 65537\r\n\r\n",
    b"POST / HTTP/1.1\r\nHost: a\r\nContent-Encoding: gzip\r\n\r\n",
    b"POST /work HTTP/1.1\r\nHost: a\r\nContent-Length: 3\r\n\r\n<a>",
    b"POST /work HTTP/1.1\r\nHost: a\r\nContent-Length: 30\r\n\r\n<a>",
    b"POST /work HTTP/1.1\r\nHost: a\r\nExpect: 100-continue\r\nContent-Length: 3\r\n\r\n<a>",
    b"POST /work HTTP/1.1\r\nHost: a\r\nExpect: 100-continue\r\nContent-Length: 30\r\n\r\n",
    b"POST /work HTTP/1.1\r\nHost: a\r\nExpect: 100-continue\r\nTransfer-Encoding: chunked\r\n\r\n0\r\n",
]

# Lines that are none.
BAD = ["", "foo", "up", "up 9", "up 01", "flush x", "commit 1 1-0", "work 1 1-1 1 x prepared", "stop 1 1 leave", "inject 1 0", "nodes 2"]


def message(node, path, name):
    """The bytes of a notification to a node, from a node that there may not be."""
    body = (f'<s:Envelope xmlns:s="http://schemas.xmlsoap.org/soap/envelope/" xmlns:a="{WSA}" xmlns:t="{AT}"><s:Header>'
            f"<a:To>http://n{node}.example{path}</a:To><a:Action>{AT}/{name}</a:Action><a:From><a:Address>http://n9.example/p/d/1-1"
            f"</a:Address></a:From><a:ReplyTo><a:Address>{WSA}/none</a:Address></a:ReplyTo></s:Header><s:Body><t:{name}/></s:Body></s:Envelope>")
    return (f"POST {path} HTTP/1.1\r\nHost: n{node}.example\r\nContent-Type: text/xml; charset=utf-8\r\n"
            f"Content-Length: {len(body)}\r\nConnection: close\r\n\r\n{body}").encode()


class Draft:
    """A random schedule on its way. Each node draws one id for each item that it makes; what is asked names ids that are likely there."""

    def __init__(self, dice):
        self.dice = dice
        self.nodes = dice.randint(1, 8)
        self.lines = [f"nodes {self.nodes}"]
        self.starts = {node: 1 for node in range(1, self.nodes + 1)}
        self.made = {node: 0 for node in range(1, self.nodes + 1)}
        # Where few nodes begin activities their ids are easily met.
        self.initiators = dice.sample(range(1, self.nodes + 1), dice.randint(1, self.nodes))
        # How often a story is disturbed, and by what.
        self.disturbed = dice.choice([0, 0.1, 0.3, 0.6])
        self.weights = [dice.choice([0, 1, 3, 8]) for _ in self.DISTURBANCES]
        self.last_call = dice.choice([4, 8, 12, 40])

    def add(self, line):
        self.lines.append(line)

    def node(self):
        return self.dice.randint(1, self.nodes)

    def initiator(self):
        return self.dice.choice(self.initiators)

    def activity(self, at):
        starts, made = self.starts[at], self.made[at]
        if self.dice.random() < 0.1:
            starts = self.dice.randint(1, starts + 1)
        return f"{starts}-{max(1, made - self.dice.choice([0, 0, 0, 1, 2, 3, 5, -1]))}"

    def begin(self, at):
        self.add(f"begin {at} {self.node()} {self.dice.choice([0, 3000, 60000, 60000, 60000, 4294967295])}")
        self.made[at] += 1

    def interpose(self, at):
        self.add(f"interpose {at} {self.activity(at)} {self.node()}")
        self.made[at] += 1

    def work(self, at):
        vote = self.dice.choice(["prepared"] * 6 + ["readonly", "readonly", "aborted"])
        self.add(f"work {at} {self.activity(at)} {self.node()} {self.dice.choice('dddv')} {vote}")

    def end(self, at):
        self.add(f"{self.dice.choice(['commit'] * 5 + ['rollback'])} {at} {self.activity(at)}")

    def ask(self):
        self.dice.choice([self.begin, self.interpose, self.work, self.end])(self.initiator())

    def flush(self):
        self.add(f"flush {self.dice.choice([0, 1, 1, 2, 3, 5, 8, 20, 99, 99, 99])}")

    def deliver(self):
        self.add(f"deliver {self.dice.choice([self.dice.randint(1, 12), self.dice.randint(1, 60), self.dice.randint(1, 400), 1000000])}")

    def tick(self):
        self.add(f"tick {self.node()} {self.dice.choice([0, 1000, 5000, 5000, 5000, 60000, 4294967295])}")

    def crash(self):
        self.add(f"crash {self.node()}")

    def up(self, node=None):
        node = node or self.node()
        self.add(f"up {node}")
        if self.dice.random() < 0.7:
            self.starts[node], self.made[node] = self.starts[node] + 1, 0

    def crash_and_up(self):
        node = self.node()
        self.add(f"crash {node}")
        self.add(f"up {node}")
        self.starts[node], self.made[node] = self.starts[node] + 1, 0

    def arm(self):
        call = self.dice.choice([self.dice.randint(1, 6), self.dice.randint(1, self.last_call), self.dice.randint(1, 40)])
        call = self.dice.choice([1000, 1000000]) if self.dice.random() < 0.02 else call
        leaves = self.dice.choice(["keep", "drop", "fill 0", "fill 1", f"fill {self.dice.randint(0, 255)}"])
        node = self.node()
        self.add(self.dice.choice([f"fail {node} {call}", f"stop {node} {call} {leaves}"]))
        if self.dice.random() < 0.6:
            self.dice.choice([self.flush, self.tick, self.ask])()
            self.up(node)

    def inject(self):
        node, path = self.node(), self.dice.choice(["/c/d/1-1/1", "/c/v/1-2/1", "/p/d/1-1", "/p/v/2-1", "/completion/1-1"])
        whole = message(node, path, self.dice.choice(["Prepare", "Prepared", "Commit", "Committed", "Aborted", "Rollback", "ReadOnly"]))
        given = self.dice.choice([
            self.dice.choice(REFUSED),
            self.dice.choice(REFUSED),
            whole,
            whole[:self.dice.randrange(len(whole))],
            b"POST /tick HTTP/1.0\r\nContent-Length: 0\r\n\r\n",
            self.dice.randbytes(self.dice.randint(1, 40)),
        ]).hex()
        self.add(f"inject {node} {self.dice.choice([given, given.upper()])}")

    DISTURBANCES = [ask, flush, deliver, tick, crash, up, crash_and_up, arm, inject]

    def disturb(self):
        if any(self.weights):
            self.dice.choices(self.DISTURBANCES, self.weights)[0](self)

    def go_on(self):
        """Messages go to and fro, maybe disturbed."""
        while self.dice.random() < self.disturbed:
            self.disturb()
        self.add(self.dice.choice(["flush 99", "flush 99", "flush 99", f"flush {self.dice.randint(1, 9)}"]))

    def story(self):
        """A transaction of some depth, from its begin to its end."""
        at = self.initiator()
        self.begin(at)
        self.go_on()
        for _ in range(self.dice.choice([0, 0, 0, 0, 1, 1, 2, 3, 5, 7])):
            self.add(f"interpose {at} {self.starts[at]}-{max(1, self.made[at])} {self.node()}")
            self.made[at] += 1
            self.go_on()
        for _ in range(self.dice.choice([0, 1, 1, 2, 3, 6])):
            self.work(at)
            if self.dice.random() < 0.7:
                self.go_on()
        self.end(at)
        self.go_on()


def random_schedule(seed):
    """5 to 200 lines, of stories that are disturbed or of lines that stand in no order; one in 50 has a line that is none."""
    dice = random.Random(seed)
    draft, most = Draft(dice), dice.choice([5, 10, 20, 20, 40, 40, 60, 100, 200])
    is_told = dice.random() < 0.8
    while len(draft.lines) <= most:
        if is_told:
            draft.story()
        else:
            dice.choice([draft.ask, draft.flush, draft.disturb])()
    if dice.random() < 0.02:
        draft.lines.insert(dice.randint(0, len(draft.lines)), dice.choice(BAD))
    return "\n".join(draft.lines[:most + 1]) + "\n"


def of_the_repository():
    """Those that stand in examples/ and in the documents."""
    folder = os.path.join(TOP, "examples")
    for name in sorted(os.listdir(folder)):
        if name.endswith(".schedule"):
            with open(os.path.join(folder, name), encoding="utf-8") as it:
                yield it.read()
    for name in ("README.md", "docs/COMMANDS.md", "docs/OPERATING.md"):
        with open(os.path.join(TOP, name), encoding="utf-8") as it:
            for found in re.finditer(r"(?m)^    nodes \d.*\n(?:    .*\n)*", it.read()):
                yield re.sub("(?m)^    ", "", found[0])


def grown():
    """The journal of node 2 grows until it is written anew, at the 18th vote of the eleventh of these transactions. That turn has six calls
    before the six by which it is written; each of those fails, or node 2 stops there, and goes on behind that."""
    lines = ["nodes 2"]
    for number in range(1, 12):
        lines += ["begin 1 2 60000", "flush 999", *[f"work 1 1-{number} 2 d prepared"] * 64, "flush 999", f"commit 1 1-{number}", "flush 999"]
    lines[-1] = "flush 18"
    for call in range(6):
        for what in ("fail 2 CALL", "stop 2 CALL keep", "stop 2 CALL drop", "stop 2 CALL fill 0", "stop 2 CALL fill 1"):
            yield "\n".join([*lines, what.replace("CALL", str(7 + call)), "flush 1", "flush 1", "up 2", "tick 2 5000", "flush 3"]) + "\n"


if __name__ == "__main__":
    print(random_schedule(int(sys.argv[1]) if len(sys.argv) > 1 else 1), end="")
