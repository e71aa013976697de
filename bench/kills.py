#!/usr/bin/env python3
"""Kills nodes that serve, at random moments of commits, and looks whether a transaction was split.

    bench/kills.py [COUNT] [SEED]

Each of COUNT rounds (200) runs a coordinator, two participants and an initiator on the loopback, whose journals last from round to
round. The initiator begins a transaction with a durable participant at each, and commits it; meanwhile one or two of the others are
killed by signal 9, at random moments of the time that a commit takes, and started again. Then all are up, and are asked for what is
due. A transaction is split where one of its participants printed that it committed, and the other or the root that it aborted. It
says what came out and how often, and ends with status 1 where a transaction was split or a journal didn't load. A kill may take what
a node was about to print.

It stands outside the gate, and wants a built `atx`, or another program in ATX. Ports 9101 to 9104 are to be free.
"""
import collections
import os
import random
import subprocess
import sys
import tempfile
import time

TOP = os.path.dirname(os.path.dirname(os.path.abspath(__file__)))
ATX = os.environ.get("ATX", os.path.join(TOP, "crates", "atx", "out", "atx"))
PORTS = {"coordinator": 9101, "first": 9102, "second": 9103, "initiator": 9104}
ROLES = {"coordinator": "coordinator", "first": "participant", "second": "participant", "initiator": "initiator"}
KILLED = ["coordinator", "first", "second"]


def base(name):
    return f"http://127.0.0.1:{PORTS[name]}"


class Node:
    """A process of atx, and all that it and those before it at the same journal printed."""

    def __init__(self, room, name):
        self.room, self.name, self.process, self.lines, self.seen = room, name, None, [], 0
        self.out = os.path.join(room, f"{name}.out")

    def start(self, turns=1_000_000, lines=""):
        self.collect()
        with open(self.out, "w", encoding="utf-8") as out:
            self.process = subprocess.Popen(
                [ATX, ROLES[self.name], "--listen", f"127.0.0.1:{PORTS[self.name]}", "--journal", os.path.join(self.room, self.name), "--turns", str(turns)],
                stdin=subprocess.PIPE, stdout=out, stderr=subprocess.DEVNULL, text=True)
        self.process.stdin.write(lines)
        self.process.stdin.close()

    def wait_up(self):
        for _ in range(500):
            with open(self.out, encoding="utf-8") as out:
                if out.read().startswith("up "):
                    return
            if self.process.poll() is not None:
                break
            time.sleep(0.01)
        sys.exit(f"{self.name} isn't up: status {self.process.poll()}")

    def kill(self):
        self.process.kill()
        self.process.wait()

    def collect(self):
        """Keeps the effects that the process before printed."""
        if os.path.exists(self.out):
            with open(self.out, encoding="utf-8") as out:
                self.lines += [line for line in out.read().splitlines() if line.split()[0] in ("root", "leaf")]
            os.remove(self.out)

    def take(self):
        """The effects that were printed since."""
        with open(self.out, encoding="utf-8") as out:
            lines = self.lines + [line for line in out.read().splitlines() if line.split()[0] in ("root", "leaf")]
        fresh, self.seen = lines[self.seen:], len(lines)
        return fresh


def tick(name):
    subprocess.run([ATX, "tick", "--to", base(name)], check=False, stdout=subprocess.DEVNULL)


LINES = (f"begin {base('coordinator')} 60000\nwait\nwait\n"
         + "".join(f"work 1 {base(name)} d prepared k v\nwait\n" for name in ("first", "second")) + "commit 1\nwait\n")


def commit(nodes, chance, calm, kills):
    """One transaction, with so many kills at random moments of the time that it takes without one, for 1.5 seconds or three times as
    long at most. Returns how long it took."""
    initiator = nodes["initiator"]
    start = time.time()
    initiator.start(0, LINES)
    for moment in sorted(chance.uniform(0, calm) for _ in range(kills)):
        time.sleep(max(0, start + moment - time.time()))
        node = nodes[chance.choice(KILLED)]
        node.kill()
        time.sleep(chance.uniform(0, 0.03))
        node.start()
        node.wait_up()
    while time.time() < start + max(1.5, 3 * calm) and initiator.process.poll() is None:
        time.sleep(0.005)
    took = time.time() - start
    if initiator.process.poll() is None:
        initiator.kill()
    return took


def rest(nodes):
    """All go down and come up again, so that what their journals hold open is due at once; then they are asked twice for it."""
    for name in KILLED:
        nodes[name].kill()
        nodes[name].start()
        nodes[name].wait_up()
    for _ in range(2):
        for name in KILLED:
            tick(name)
            time.sleep(0.05)


def ended(nodes):
    """What the nodes printed since they were asked last: of each root and participant how it ended. A kill may take a line."""
    return {name: [line.split()[-1] for line in nodes[name].take()] for name in KILLED}


def is_split(endings):
    leaves = endings["first"] + endings["second"]
    return "committed" in leaves and "aborted" in leaves + endings["coordinator"]


def main(words):
    count = int(words[0]) if words else 200
    chance = random.Random(int(words[1]) if words[1:] else 1)
    came, wrong = collections.Counter(), 0
    with tempfile.TemporaryDirectory() as room:
        nodes = {name: Node(room, name) for name in PORTS}
        try:
            for name in KILLED:
                nodes[name].start()
                nodes[name].wait_up()
            calm = commit(nodes, chance, 10, 0)
            endings = ended(nodes)
            for _ in range(100):
                if all(endings.values()):
                    break
                time.sleep(0.05)
                endings = {name: endings[name] + more for name, more in ended(nodes).items()}
            if endings != {name: ["committed"] for name in KILLED}:
                sys.exit(f"a transaction without kills didn't commit: {endings}")
            for number in range(count):
                commit(nodes, chance, calm, chance.choice((1, 1, 2)))
                rest(nodes)
                endings = ended(nodes)
                came[" ".join(f"{name}: {'+'.join(endings[name]) or 'nothing'}" for name in KILLED)] += 1
                wrong += is_split(endings)
                print(f"\r{number + 1} of {count} rounds", end="", flush=True, file=sys.stderr)
            print(file=sys.stderr)
        finally:
            for node in nodes.values():
                if node.process:
                    node.kill()
    for what, times in came.most_common():
        print(f"{times:6} {what}")
    print(f"{wrong} of {count} transactions were split")
    return 1 if wrong else 0


if __name__ == "__main__":
    sys.exit(main(sys.argv[1:]))
