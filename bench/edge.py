#!/usr/bin/env python3
"""Times requests to a node over the loopback, alone and beside peers that are silent, slow or can't be reached.

    bench/edge.py [ROUNDS]

Two coordinators serve: one that nobody else speaks to, and one beside 50 connections that send nothing, 8 that sent half of a request, and 4
peers that accept no connection, to which the node posts `Rollback`s of transactions that it doesn't know, 5 a second: none leaves a record,
for which all would wait until the disk has it. In each of ROUNDS (8) rounds both are asked in turn, each for a second by one client and for a second by 32: `Committed`s of a transaction that
they don't know, which leave no record, each on a connection of its own, and the next as soon as an answer was there to its end. It
prints requests a second, a coordinator's microseconds of a processor for each, and, of all rounds, the times within which a half and 99 of
100 were answered, and how many times the one the other is; and how many requests the second coordinator answered for one of the first, in
a second and in a second of its processor: the median over the rounds with its least and most. On a machine that does much else only the
latter says something of the program.

The clients are one small program in C, which this script compiles with `cc` and which waits by `poll`. It stands outside the gate, and
wants a built `atx`, or another program in ATX. Ports 9201, 9202 and 9211 to 9214 are to be free.
"""
import os
import socket
import statistics
import subprocess
import sys
import tempfile
import threading
import time

from serving import AT, ATX, ask, committed, request

ALONE, BESIDE = 9201, 9202
CLIENTS, IDLE, HALF, SHUT = 32, 50, 8, (9211, 9212, 9213, 9214)
MILLIS = 1000

# Asks again and again for so many milliseconds, with so many clients at once, and prints the microseconds of each answer.
ASKING = r"""
#include <arpa/inet.h>
#include <errno.h>
#include <fcntl.h>
#include <poll.h>
#include <stdio.h>
#include <stdlib.h>
#include <string.h>
#include <sys/socket.h>
#include <time.h>
#include <unistd.h>

#define MOST 256
static struct pollfd fds[MOST];
static long begun[MOST];
static int got[MOST];
static char request[65536];
static size_t size;
static struct sockaddr_in node;

static long now(void) {
    struct timespec time;
    clock_gettime(CLOCK_MONOTONIC, &time);
    return time.tv_sec * 1000000 + time.tv_nsec / 1000;
}

static void fail(const char *what) { perror(what); exit(1); }

static void begin(int at) {
    int fd = socket(AF_INET, SOCK_STREAM | SOCK_NONBLOCK, 0);
    begun[at] = now(), got[at] = 0;
    fds[at] = (struct pollfd){fd, POLLOUT, 0};
    if (fd < 0 || (connect(fd, (struct sockaddr *)&node, sizeof node) && errno != EINPROGRESS)) fail("connect");
}

/* Whether the answer is there to its end. */
static int goes_on(int at) {
    char buf[4096];
    if (fds[at].events == POLLOUT) {
        if (send(fds[at].fd, request, size, MSG_NOSIGNAL) != (ssize_t)size) fail("send");
        fds[at].events = POLLIN;
        return 0;
    }
    ssize_t n = read(fds[at].fd, buf, sizeof buf);
    if (n < 0 && errno == EAGAIN) return 0;
    if (n < 0 || (!n && !got[at]) || (n && !got[at] && strncmp(buf, "HTTP/1.1 202 ", 13))) fail("not answered 202");
    got[at] += n;
    return !n;
}

int main(int count, char **words) {
    int clients = atoi(words[2]), left = clients;
    long end = now() + 1000 * atol(words[3]);
    node = (struct sockaddr_in){AF_INET, htons(atoi(words[1])), {htonl(INADDR_LOOPBACK)}};
    size = fread(request, 1, sizeof request, stdin);
    for (int at = 0; at < clients; at++) begin(at);
    while (left) {
        if (poll(fds, clients, -1) < 0) fail("poll");
        for (int at = 0; at < clients; at++)
            if (fds[at].revents && goes_on(at)) {
                close(fds[at].fd);
                printf("%ld\n", now() - begun[at]);
                if (now() < end) begin(at);
                else fds[at].fd = -1, left--;
            }
    }
    return 0;
}
"""


def connected(text):
    """A connection on which only these bytes were sent."""
    it = socket.create_connection(("127.0.0.1", BESIDE))
    it.sendall(text)
    return it


def shut(port):
    """A peer that accepts no connection: nobody takes those that fill its queue."""
    listener = socket.create_server(("127.0.0.1", port), backlog=0)
    filling = []
    for _ in range(4):
        it = socket.socket()
        it.setblocking(False)
        it.connect_ex(("127.0.0.1", port))
        filling.append(it)
    return [listener] + filling


class Beside:
    """Peers beside those that are timed, while it is open."""

    def __enter__(self):
        self.shut = [it for port in SHUT for it in shut(port)]
        self.slow = []
        self.ends = threading.Event()
        self.posts = 0
        self.thread = threading.Thread(target=self.post, daemon=True)
        self.thread.start()
        return self

    def renew(self):
        """The node closes those that send nothing: others come in their place."""
        for it in self.slow:
            it.close()
        self.slow = [connected(b"") for _ in range(IDLE)] + [connected(committed()[:300]) for _ in range(HALF)]

    def post(self):
        """Says five times a second that a participant is prepared, of which the node knows nothing, and which accepts no connection."""
        while not self.ends.wait(0.2):
            home = f"http://127.0.0.1:{SHUT[self.posts % len(SHUT)]}/p/d/1-{self.posts}"
            ask(BESIDE, request("/c/d/9-9/1", f"{AT}/Prepared", "<t:Prepared/>", f"<wsa:From><wsa:Address>{home}</wsa:Address></wsa:From>"))
            self.posts += 1

    def __exit__(self, *fault):
        self.ends.set()
        self.thread.join()
        for it in self.shut + self.slow:
            it.close()


class Node:
    """A coordinator that is up, and how often and how fast it answered: one client, and many."""

    def __init__(self, room, port):
        self.port, self.rates, self.costs, self.times = port, *({1: [], CLIENTS: []} for _ in range(3))
        out = os.path.join(room, f"out-{port}")
        with open(out, "w", encoding="utf-8") as told:
            self.process = subprocess.Popen([ATX, "coordinator", "--listen", f"127.0.0.1:{port}", "--journal", os.path.join(room, f"journal-{port}")],
                                            stdin=subprocess.DEVNULL, stdout=told)
        for _ in range(1000):
            with open(out, encoding="utf-8") as told:
                if told.read().startswith("up "):
                    return
            time.sleep(0.01)
        self.end()
        sys.exit("edge: the node isn't up")

    def spent(self):
        """The seconds of a processor that it took so far."""
        with open(f"/proc/{self.process.pid}/schedstat", encoding="utf-8") as told:
            return int(told.read().split()[0]) / 1e9

    def ask(self, asking, clients):
        start, spent = time.perf_counter(), self.spent()
        asked = subprocess.run([asking, str(self.port), str(clients), str(MILLIS)], input=committed(), stdout=subprocess.PIPE, check=True)
        times = [int(it) for it in asked.stdout.split()]
        self.rates[clients].append(len(times) / (time.perf_counter() - start))
        self.costs[clients].append((self.spent() - spent) / len(times))
        self.times[clients] += times

    def end(self):
        self.process.kill()
        self.process.wait()


def part_of(times, parts):
    """The time within which so many of 100 were answered."""
    return sorted(times)[len(times) * parts // 100]


def shown(name, node, clients):
    rate, cost = statistics.median(node.rates[clients]), statistics.median(node.costs[clients])
    half, most = part_of(node.times[clients], 50), part_of(node.times[clients], 99)
    print(f"{name:<10}{clients:>8}{rate:>12.0f}{cost * 1e6:>10.1f}{half / 1000:>10.2f}{most / 1000:>10.2f}{most / half:>8.1f}")


def compared(name, ones, others):
    ratios = [one / other for one, other in zip(ones, others)]
    print(f"{name}: {statistics.median(ratios):.2f} ({min(ratios):.2f} to {max(ratios):.2f})")


def compiled(room):
    source, program = os.path.join(room, "asking.c"), os.path.join(room, "asking")
    with open(source, "w", encoding="utf-8") as file:
        file.write(ASKING)
    subprocess.run([os.environ.get("CC", "cc"), "-O2", "-w", "-o", program, source], check=True)
    return program


def main(words):
    rounds = int(words[0]) if words else 8
    nodes = []
    with tempfile.TemporaryDirectory() as room:
        asking = compiled(room)
        try:
            alone, others = nodes[:] = [Node(room, ALONE), Node(room, BESIDE)]
            with Beside() as beside:
                time.sleep(1)
                for _ in range(rounds):
                    beside.renew()
                    for clients in (1, CLIENTS):
                        alone.ask(asking, clients)
                        others.ask(asking, clients)
                posts = beside.posts
        finally:
            for it in nodes:
                it.end()
    print(f"{'':<10}{'clients':>8}{'a second':>12}{'us each':>10}{'p50 ms':>10}{'p99 ms':>10}{'ratio':>8}")
    for clients in (1, CLIENTS):
        shown("alone", alone, clients)
        shown("beside", others, clients)
    for clients in (1, CLIENTS):
        compared(f"beside for one alone, {clients} clients, a second", others.rates[clients], alone.rates[clients])
        compared(f"beside for one alone, {clients} clients, a second of its processor", alone.costs[clients], others.costs[clients])
    print(f"beside {IDLE} silent, {HALF} half-sent, {len(SHUT)} unreachable peers with {posts} posts to them")


if __name__ == "__main__":
    main(sys.argv[1:])
