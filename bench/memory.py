#!/usr/bin/env python3
"""Refuses memory to atx, one growth at a time, and looks what it does then.

    bench/memory.py [--names] [COMMAND..]

Each command is run first with all the memory that it asks for, and then once for each time that it asked: there that one growth is
refused, and no other. It is told to the program by a malloc of its own, which this script compiles with `cc` and loads before the C
library's; what that library asks for inside isn't counted. It prints for each command how many growths there are, and what came of
them when they were refused:

    9      the program ended with this status. Of a command that doesn't serve nothing was printed or posted then. One that serves had
           printed whole lines alone, and answered, posted and recorded what it does with memory, up to there; it comes up
           again on its journal, with the next incarnation
    503    a node answered so, and was asked again: then all answers, posts, printed lines and both files of its journal were those
           that they are with memory, to the byte
    none   all of it was to the byte what it is with memory

A growth of the machine itself, of its connections and posts, is a failed call of the machine instead:

    8      the listener failed, or the post of `tick`, which may have come through: as 9, with this status
    closed a connection was closed without an answer, and the node was asked again: as 503
    unsent all was as with memory, but one post, which failed and is as a lost message

Three commands that begin with `for a while` have all growths refused from one on until the node waits, for each growth of one turn. Then a
turn posts the first of its posts, and may lose the others: each is to come again at the first turn 5 seconds later, or where the request
that it answered is asked once more; and the node's status counts it as lost. Those growths are `unsent`, and it is said how many posts
were missing where there was more than one.

Anything else is wrong: another status, half a line, a record or a post that isn't there or that is there twice. Each is printed, and the
script ends with status 1. (Of what a node says on standard error it is looked whether its lines are whole: a log may lack some.)

A node is asked what `replay --bytes` says that the nodes of a schedule were sent, over the loopback; the others at which it posts are this
script's. Of a node with a timer of its own the growths are tried that come behind its last request. Two commands are tried at a time,
at ports 9301 to 9308 and 9321 to 9328. With words only the commands whose names begin so.

With `--names` it says of the growths that ended neither with 9 nor with 503 where they were asked for: how often, and the functions that
had called one another, the innermost first, but for those of the standard library, as far as the program has symbols and frame pointers.

It stands outside the gate, and wants a built `atx` (or another program, that ATX names), `cc`, and with `--names` `nm`.
"""
import bisect
import collections
import functools
import itertools
import multiprocessing
import os
import re
import socket
import struct
import subprocess
import sys
import tempfile
import threading
import time
import uuid

TOP = os.path.dirname(os.path.dirname(os.path.abspath(__file__)))
ATX = os.environ.get("ATX", os.path.join(TOP, "crates", "atx", "out", "atx"))
PORTS = (9300, 9320)  # of each worker; a node's is its number more
PORT = PORTS[0]
BUSY = b"HTTP/1.1 503 "
PATIENCE = 60

FRAMES = 62
NAMES = 6
LIBRARIES = ("rattle_", "libc::heap::", "std_heap::", "std_alloc::", "std_collections::", "std::", "core::")

# Counts what the program itself asks for, and refuses one of these. The file's numbers: how many there were, which to refuse, whether all
# behind it are refused too until the program calls poll, and where in the program the calls stood that led to the refused one, innermost
# first.
REFUSING = r"""
#define _GNU_SOURCE
#include <dlfcn.h>
#include <errno.h>
#include <fcntl.h>
#include <link.h>
#include <poll.h>
#include <stddef.h>
#include <stdint.h>
#include <stdlib.h>
#include <sys/mman.h>

extern void *__libc_malloc(size_t), *__libc_calloc(size_t, size_t), *__libc_realloc(void *, size_t), *__libc_memalign(size_t, size_t);
#define FRAMES 62
extern void *__libc_stack_end;
static uintptr_t base, from, to;
static volatile uint64_t *numbers;
static int lasts;
static int (*waits)(struct pollfd *, nfds_t, int);

static int find(struct dl_phdr_info *it, size_t size, void *unused) {
    base = it->dlpi_addr;
    for (int at = 0; at < it->dlpi_phnum; at++)
        if (it->dlpi_phdr[at].p_type == PT_LOAD && it->dlpi_phdr[at].p_flags & PF_X) {
            uintptr_t begin = it->dlpi_addr + it->dlpi_phdr[at].p_vaddr, end = begin + it->dlpi_phdr[at].p_memsz;
            if (!to || begin < from) from = begin;
            if (end > to) to = end;
        }
    return 1; /* the first is the program */
}

__attribute__((constructor)) static void begin(void) {
    const char *name = getenv("GROWTHS");
    int file = name ? open(name, O_RDWR) : -1;
    void *shared = file < 0 ? MAP_FAILED : mmap(0, 8 * (3 + FRAMES), PROT_READ | PROT_WRITE, MAP_SHARED, file, 0);
    waits = (int (*)(struct pollfd *, nfds_t, int))dlsym(RTLD_NEXT, "poll");
    dl_iterate_phdr(find, 0);
    if (shared != MAP_FAILED) numbers = shared;
}

static int is_program(uintptr_t place) { return place >= from && place < to; }

/* A frame is the caller's frame and the place to return to; each lies on the stack above the one that it calls. */
static void note(uintptr_t *frame) {
    for (int at = 0; at < FRAMES && is_program(frame[1]); at++) {
        numbers[3 + at] = frame[1] - base;
        if (frame[0] <= (uintptr_t)frame || frame[0] + 2 * sizeof *frame > (uintptr_t)__libc_stack_end) return;
        frame = (uintptr_t *)frame[0];
    }
}

static int refused(uintptr_t *frame) {
    if (!numbers || !is_program(frame[1])) return 0;
    if (++numbers[0] == numbers[1]) {
        note(frame);
        lasts = numbers[2];
    } else if (!lasts) return 0;
    errno = ENOMEM;
    return 1;
}

int poll(struct pollfd *asks, nfds_t count, int millis) {
    lasts = 0;
    return waits(asks, count, millis);
}

#define FRAME __builtin_frame_address(0)
void *malloc(size_t size) { return refused(FRAME) ? 0 : __libc_malloc(size); }
void *calloc(size_t count, size_t size) { return refused(FRAME) ? 0 : __libc_calloc(count, size); }
void *realloc(void *old, size_t size) { return refused(FRAME) ? 0 : __libc_realloc(old, size); }
void *aligned_alloc(size_t align, size_t size) { return refused(FRAME) ? 0 : __libc_memalign(align, size); }
void *memalign(size_t align, size_t size) { return refused(FRAME) ? 0 : __libc_memalign(align, size); }
int posix_memalign(void **to, size_t align, size_t size) {
    void *it = refused(FRAME) ? 0 : __libc_memalign(align, size);
    if (!it) return ENOMEM;
    *to = it;
    return 0;
}
"""

PLAIN = "nodes 3\nbegin 1 2 60000\nflush 99\nwork 1 1-1 3 d prepared\nflush 99\ncommit 1 1-1\nflush 99\n"
MANY = ("nodes 4\nbegin 1 2 60000\nflush 99\ninterpose 1 1-1 3\nflush 99\nwork 1 1-1 4 v readonly\nflush 99\nwork 1 1-2 4 d prepared\nflush 99\n"
        "commit 1 1-1\nflush 99\n")
BROUGHT = "".join(f"inject 2 {it.hex()}\n" for it in (b"GET / HTTP/1.1\r\nHost: a\r\n\r\n", b"POST /work HTTP/1.1\r\nHost: a\r\nContent-Length: 3\r\n\r\n<a>"))
TWO = ("nodes 4\nbegin 1 2 60000\nflush 99\nwork 1 1-1 3 d prepared\nflush 99\nwork 1 1-1 4 d prepared\nflush 99\ncommit 1 1-1\n"
       "flush 99\n")
FAULTS = PLAIN + "fail 3 2\ntick 3 5000\ncrash 3\nup 3\ntick 3 5000\nstop 2 3 fill 1\n" + BROUGHT
WORK = (b'<s:Envelope xmlns:s="http://schemas.xmlsoap.org/soap/envelope/" xmlns:a="http://www.w3.org/2005/08/addressing" '
        b'xmlns:c="http://docs.oasis-open.org/ws-tx/wscoor/2006/06" xmlns:w="http://example.org/atx/work/1"><s:Header>'
        b"<a:Action>http://example.org/atx/work/1/Work</a:Action><a:MessageID>urn:m</a:MessageID>"
        b"<a:ReplyTo><a:Address>http://n1.example/i/1-1</a:Address><a:ReferenceParameters><x xmlns='u' y='&amp;'>z</x></a:ReferenceParameters></a:ReplyTo>"
        b"<c:CoordinationContext><c:Identifier>i</c:Identifier>"
        b"<c:CoordinationType>http://docs.oasis-open.org/ws-tx/wsat/2006/06</c:CoordinationType>"
        b"<c:RegistrationService><a:Address>http://n2.example/registration/1-1</a:Address></c:RegistrationService></c:CoordinationContext></s:Header>"
        b"<s:Body><w:Work><w:Key>k</w:Key><w:Value>v</w:Value><w:Kind>durable</w:Kind><w:Vote>prepared</w:Vote></w:Work></s:Body></s:Envelope>")
PREPARED = open(os.path.join(TOP, "examples", "prepared.xml"), "rb").read()


class Memory:
    """The malloc that refuses, and how many growths a program had."""

    def __init__(self, room):
        source, self.library = os.path.join(room, "refusing.c"), os.path.join(room, "refusing.so")
        with open(source, "w", encoding="utf-8") as file:
            file.write(REFUSING)
        flags = ["-O2", "-w", "-fno-omit-frame-pointer", "-fno-optimize-sibling-calls", "-shared", "-fPIC"]
        subprocess.run([os.environ.get("CC", "cc"), *flags, "-o", self.library, source, "-ldl"], check=True)
        self.numbers = os.path.join(room, "numbers")

    def start(self, nth, words, lasts=False, **how):
        """The program, to which its n-th growth is refused, and perhaps all behind it until it waits; none where n is 0."""
        with open(self.numbers, "wb") as file:
            file.write(struct.pack(f"={3 + FRAMES}Q", 0, nth, lasts, *[0] * FRAMES))
        env = {**os.environ, "LD_PRELOAD": self.library, "GROWTHS": self.numbers}
        return subprocess.Popen([ATX, *words], env=env, stderr=subprocess.PIPE, **how)

    def read(self):
        with open(self.numbers, "rb") as file:
            return struct.unpack(f"={3 + FRAMES}Q", file.read())

    def growths(self):
        return self.read()[0]

    def where(self):
        """The functions that led to the growth that was refused, innermost first."""
        found = (named(place) for place in self.read()[3:] if place)
        return tuple(it for it in found if not it.startswith(LIBRARIES))[:NAMES]


@functools.cache
def symbols():
    """The program's functions by their places, in order."""
    listed = subprocess.run(["nm", ATX], capture_output=True, text=True, check=False).stdout
    found = re.findall(r"^([0-9a-f]+) [tT] (.*)$", listed, re.M)
    return sorted((int(place, 16), name) for place, name in found)


def named(place):
    at = bisect.bisect_right(symbols(), (place,)) - 1
    return re.sub(r"(::)?<#[0-9a-f]+>", "", symbols()[at][1]) if at >= 0 else hex(place)


class Filtered:
    """What a command did that doesn't serve: its status, and what it printed and said."""

    def __init__(self, memory, nth, words, given=b""):
        it = memory.start(nth, words, stdin=subprocess.PIPE, stdout=subprocess.PIPE)
        self.out, self.said = it.communicate(given, timeout=PATIENCE)
        self.status, self.growths = it.returncode, memory.growths()


def is_whole(data):
    """Whether a post is there with all of its body."""
    head, end, body = data.partition(b"\r\n\r\n")
    size = re.search(rb"\r\nContent-Length: (\d+)", head)
    return data == b"end" or bool(end and size) and len(body) >= int(size[1])


class Listener:
    """Takes what is posted to a port: it reads each post whole, answers nothing, and keeps it."""

    def __init__(self, port):
        self.port, self.posts = port, []
        self.socket = socket.create_server(("127.0.0.1", port), backlog=1024)
        threading.Thread(target=self.take, daemon=True).start()

    @staticmethod
    def read(it):
        data = b""
        it.settimeout(PATIENCE)
        while not is_whole(data) and (part := it.recv(65536)):
            data += part
        return data

    def take(self):
        try:
            while True:
                it, _ = self.socket.accept()
                with it:
                    data = self.read(it)
                if data:
                    self.posts.append((self.port, data))
        except OSError:
            return

    def taken(self):
        """What was posted before this, in order; from now on nothing was."""
        with socket.create_connection(("127.0.0.1", self.port), timeout=PATIENCE) as it:
            it.sendall(b"end")
        while not self.posts or self.posts[-1][1] != b"end":
            time.sleep(0.0005)
        posts = self.posts[:-1]
        self.posts.clear()
        return posts

    def close(self):
        self.socket.shutdown(socket.SHUT_RDWR)
        self.socket.close()


def taken(listeners):
    return [post for it in listeners for post in it.taken()]


def ticked(memory, nth, listener):
    """`tick`, which printed what it posted."""
    it = Filtered(memory, nth, ["tick", "--to", f"http://127.0.0.1:{listener.port}"])
    it.out += b"".join(data for _, data in listener.taken())
    return it


class Wrong(Exception):
    """What came out otherwise than it may."""


class Came:
    """What came of the growths that were refused, how often, and what is to be told of single ones."""

    def __init__(self, names):
        self.names, self.wrong = names, []
        self.counts, self.lost, self.places = collections.Counter(), collections.Counter(), collections.Counter()

    def refuse(self, memory, growths, run, judge):
        """Refuses each of these growths, as far as there are so many."""
        for nth in growths:
            try:
                it = run(nth)
                if it.growths < nth:
                    return
                kind = judge(it)
            except Wrong as fault:
                kind = "wrong"
                self.wrong.append(f"    growth {nth}: {fault}")
            kind, _, lost = kind.partition(" ")
            self.counts[kind] += 1
            self.lost[int(lost or 1)] += kind == "unsent"
            if self.names and kind not in ASKED_FOR:
                self.places[kind, memory.where()] += 1

    def lines(self, name):
        row = f"{name:<28}{shown([sum(self.counts.values()), *(self.counts[kind] for kind in KINDS)])}"
        lost = [f"    {count} times {posts} posts, which came later" for posts, count in sorted(self.lost.items()) if posts > 1 and count]
        places = [f"    {count} {kind}: {' < '.join(where)}" for (kind, where), count in self.places.items()]
        return "\n".join([row, *lost, *places, *self.wrong])


def has_said(said, whole):
    """Whether that is said on standard error which is said with memory, or nothing, or why it ended."""
    return said in (b"", whole) or said.startswith(b"atx: ") and said.count(b"\n") == 1 and said.endswith(b"\n")


def refusals(memory, came, run, machine=False):
    """A command that doesn't serve, and perhaps uses the machine."""
    whole = run(0)
    allowed = [(whole.status, whole.out), (9, b""), *([(8, b""), (8, whole.out)] if machine else [])]

    def judge(it):
        if (it.status, it.out) not in allowed or not has_said(it.said, whole.said):
            raise Wrong(f"status {it.status}, {it.out!r}, {it.said!r}")
        return "none" if (it.status, it.out, it.said) == (whole.status, whole.out, whole.said) else str(it.status)

    came.refuse(memory, range(1, 2**32), run, judge)


def messages(schedule):
    """What a report says: of each node what it is asked in order, a local request as its words, a delivery as the bytes."""
    report = subprocess.run([ATX, "replay", "--bytes"], input=schedule.encode(), capture_output=True, check=True).stdout.decode()
    posts, asked = {}, collections.defaultdict(list)
    lines = iter([it for it in schedule.splitlines() if not it.startswith(("nodes", "flush"))])
    number = 0
    for line in report.splitlines():
        words = line.split(" ")
        if words[0] == "msg":
            number = words[1]
            if words[3] in ("CreateCoordinationContext", "Work", "Commit") and words[2].startswith("1>"):
                asked[1].append(next(lines).split(" "))
        elif words[0] == "bytes":
            posts[number] = bytes.fromhex(words[1])
        elif words[0] == "deliver":
            asked[int(words[2])].append(local(posts[words[1]]))
    return asked


def message_id(base, name):
    return str(uuid.uuid5(uuid.NAMESPACE_URL, base + name)).encode()


def local(data):
    """The same post between nodes on this machine: addresses are theirs, and so are the identifiers that are made of them."""
    head, _, body = data.partition(b"\r\n\r\n")
    for node, name in itertools.product(range(1, 5), REQUESTS):
        body = body.replace(message_id(f"http://n{node}.example", name), message_id(url(node), name))
    head, body = (re.sub(rb"\bn(\d)\.example", lambda it: b"127.0.0.1:%d" % (PORT + int(it[1])), it) for it in (head, body))
    return re.sub(rb"Content-Length: \d+", b"Content-Length: %d" % len(body), head) + b"\r\n\r\n" + body


def url(node):
    return f"http://127.0.0.1:{PORT + int(node)}"


# What is behind a node's base in the name of a request of its own.
REQUESTS = [f"/{path}/1-{number}#{what}" for path in ("i", "p/d", "p/v") for number in (1, 2, 3) for what in ("create", "register", "work-1", "work-2")]
TICK = b"POST /tick HTTP/1.0\r\nContent-Length: 0\r\n\r\n"
SPARE = 3  # turns more than requests, so that one can be asked again: those that are left are ticks
NO_FILES = (b"", b"")


class Asked:
    """What a node of a role is asked: its lines, with a `wait` for each request that is to come first; the requests; and the journal
    that it comes up with."""

    def __init__(self, role, node, asked, files=NO_FILES, ending=b"\n", options=()):
        self.role, self.node, self.files, self.ending, self.options = role, node, files, ending, options
        self.requests, self.lines = [], []
        awaited = 0
        for it in asked:
            if isinstance(it, bytes):
                self.requests.append(it)
                awaited += 1
            else:
                self.lines += ["wait"] * awaited
                self.lines.append(self.line(it))
                awaited = 0
        self.turns = (awaited if self.lines else len(self.requests)) + SPARE

    @staticmethod
    def line(words):
        if words[0] == "begin":
            return f"begin {url(words[2])} {words[3]}"
        if words[0] == "interpose":
            return f"interpose {words[2].split('-')[1]} {url(words[3])}"
        if words[0] == "work":
            return f"work {words[2].split('-')[1]} {url(words[3])} {words[4]} {words[5]} k v"
        return f"{words[0]} {words[2].split('-')[1]}"

    def words(self, journal, turns):
        counted = [] if turns is None else ["--turns", str(turns)]
        return [self.role, "--listen", f"127.0.0.1:{PORT + self.node}", "--journal", journal, *counted, *self.options]

    def given(self):
        return "".join(line + "\n" for line in self.lines).encode()


def asks(port, data):
    """The answer to a post, or nothing where there is none."""
    answer = b""
    try:
        with socket.create_connection(("127.0.0.1", port), timeout=PATIENCE) as it:
            it.sendall(data)
            while part := it.recv(65536):
                answer += part
    except (ConnectionRefusedError, ConnectionResetError, BrokenPipeError):
        pass
    return answer


def frames(file):
    """The bodies of a journal's file."""
    found, at = [], 0
    while at + 5 <= len(file) and file[at] == 1:
        size = int.from_bytes(file[at + 1:at + 5], "big")
        found.append(file[at + 5:at + 5 + size])
        at += 5 + size
    return found


def generation(bodies):
    return int.from_bytes(bodies[0][1:], "big") if bodies and bodies[0][0] == 11 else -1


def counted(files):
    """The bodies of the file that counts: the one that was written later."""
    first, second = map(frames, files)
    return second if generation(second) > generation(first) else first


def kept(files):
    """The records but for marks and starts."""
    return [body for body in counted(files) if body[0] not in (1, 11)]


def incarnation(files):
    return max((int.from_bytes(body[1:], "big") for body in counted(files) if body[0] == 1), default=0)


def both(journal):
    found = []
    for name in (journal, journal + ".1"):
        data = b""
        if os.path.exists(name):
            with open(name, "rb") as file:
                data = file.read()
        found.append(data)
    return tuple(found)


def lay(journal, files):
    """Has the journal begin with these files."""
    for name, data in zip((journal, journal + ".1"), files):
        with open(name, "wb") as file:
            file.write(data)


class Served:
    """What a node did: its answers, how often it was busy or closed a connection unanswered, its posts, lines, files, status, and its
    records after each answer."""

    def __init__(self, memory, room, listeners, asked, nth, looks=False):
        self.answers, self.records, self.busy, self.closed, self.ticks = [], [], 0, 0, 0
        self.journal, self.port = os.path.join(room, "journal"), PORT + asked.node
        lay(self.journal, asked.files)
        self.run(memory, room, asked, nth, looks)
        self.growths = memory.growths()
        self.posts = taken(listeners)
        self.files = both(self.journal)

    def run(self, memory, room, asked, nth, looks):
        with begun(memory, room, asked, nth, asked.words(self.journal, asked.turns)) as (it, out):
            if is_up(it, out):
                self.ask(asked.requests, looks)
                self.tick(it)
            self.said = said(it)
        self.status, self.out = it.returncode, printed(out)

    def insist(self, data):
        """The answer to a request, which is asked once more where the node was busy, or didn't answer."""
        answer = asks(self.port, data)
        if answer and not answer.startswith(BUSY):
            return answer
        was_busy, answer = bool(answer), asks(self.port, data)
        if answer:
            self.busy, self.closed = self.busy + was_busy, self.closed + (not was_busy)
        return answer

    def ask(self, requests, looks=False):
        for data in requests:
            answer = self.insist(data)
            if not answer:
                return
            if looks:
                time.sleep(0.05)
            self.answers.append(answer)
            self.records.append(kept(both(self.journal)))

    def tick(self, it):
        """Asks for ticks until all turns are done."""
        missed = 0
        for _ in range(2 * SPARE):
            answer = asks(self.port, TICK)
            if answer:
                self.closed, self.busy, self.ticks, missed = self.closed + missed, self.busy + answer.startswith(BUSY), self.ticks + 1, 0
            elif it.poll() is not None:
                break
            else:
                missed += 1
        if not self.closed and not self.busy and self.ticks < SPARE and it.wait(PATIENCE) == 0:
            self.closed = 1


class begun:
    """A program that serves, and the file to which it prints; it is ended in any case."""

    def __init__(self, memory, room, asked, nth, words, lasts=False):
        self.out, given = os.path.join(room, "out"), os.path.join(room, "given")
        with open(given, "wb") as file:
            file.write(asked.given())
        with open(self.out, "wb") as told, open(given, "rb") as lines:
            self.it = memory.start(nth, words, lasts, stdin=lines, stdout=told)

    def __enter__(self):
        return self.it, self.out

    def __exit__(self, *_):
        self.it.kill()
        self.it.wait()


def said(it):
    """What a program that is about to end says on standard error."""
    try:
        return it.communicate(timeout=PATIENCE)[1]
    except subprocess.TimeoutExpired:
        raise Wrong("it doesn't end") from None


def printed(out):
    with open(out, "rb") as told:
        return told.read()


def is_up(it, out):
    end = time.time() + PATIENCE
    while time.time() < end:
        if printed(out).startswith(b"up "):
            return True
        if it.poll() is not None:
            return False
        time.sleep(0.001)
    raise Wrong("it neither comes up nor ends")


def comes_up(asked, journal):
    """Whether a node comes up on what is there, in the next incarnation."""
    wanted = b"up %d\n" % (incarnation(both(journal)) + 1)
    it = subprocess.run([ATX, *asked.words(journal, 0)], stdin=subprocess.DEVNULL, capture_output=True, timeout=PATIENCE, check=False)
    return it.returncode == 0 and it.stdout == wanted


def is_beginning(part, whole):
    """Whether this is the beginning of that, up to an item's end."""
    return whole[:len(part)] == part


def lacks_one(posts, whole):
    """Whether one post is missing, and the others are there in order."""
    return any(posts == whole[:at] + whole[at + 1:] for at in range(len(whole)))


def compared(whole, it, asked):
    """What came of a growth that was refused."""
    if it.said and not it.said.endswith(b"\n"):
        raise Wrong(f"it said {it.said!r}")
    if it.status == 0 and (it.answers, it.out, it.files) == (whole.answers, whole.out, whole.files):
        if it.posts == whole.posts:
            return "503" if it.busy else "closed" if it.closed else "none"
        if not it.busy and not it.closed and lacks_one(it.posts, whole.posts):
            return "unsent"
    if it.status not in (8, 9):
        raise Wrong(f"status {it.status}, busy {it.busy}, closed {it.closed}, {len(it.answers)} answers, {len(it.posts)} of {len(whole.posts)} posts, "
                    f"{it.out!r}, files {it.files == whole.files}")
    if it.busy or it.closed:
        raise Wrong("it was busy, and ended too")
    if not is_beginning(it.out.splitlines(True), whole.out.splitlines(True)) or not it.out.endswith(b"\n") and it.out:
        raise Wrong(f"it printed {it.out!r}")
    if not is_beginning(it.answers, whole.answers) or collections.Counter(it.posts) - collections.Counter(whole.posts):
        raise Wrong("it answered or posted something else")
    found, answered = kept(it.files), len(it.answers)
    least = whole.records[answered - 1] if answered else kept(asked.files)
    most = whole.records[min(answered, len(whole.records) - 1)] if whole.records else kept(asked.files)
    if found not in (least, most) and not (is_beginning(least, found) and is_beginning(found, most)):
        raise Wrong(f"{len(found)} records, where there are {len(least)} to {len(most)}")
    if not comes_up(asked, it.journal):
        raise Wrong("it doesn't come up again")
    return str(it.status)


def listening(node):
    return [Listener(PORT + other) for other in range(1, 5) if other != node]


def serving(memory, room, came, asked, anew=False):
    """A node that serves, and perhaps writes its journal anew."""
    listeners = listening(asked.node)
    try:
        whole = Served(memory, room, listeners, asked, 0, looks=True)
        again = Served(memory, room, listeners, asked, 0)
        right = whole.status == 0 and whole.out.endswith(asked.ending) and len(whole.answers) == len(asked.requests)
        if not right or anew and not whole.files[1] or compared(whole, again, asked) != "none":
            raise Wrong(f"with memory: status {whole.status}, {whole.out!r}, {len(whole.answers)} answers, {whole.said!r}")
        came.refuse(memory, range(1, 2**32), lambda nth: Served(memory, room, listeners, asked, nth), lambda it: compared(whole, it, asked))
    finally:
        for it in listeners:
            it.close()


def lasting(memory, room, came, asked):
    """A node that serves, to which all growths of the turn of its last request are refused from one on until it waits."""
    listeners = listening(asked.node)
    try:
        whole = Lasting(memory, room, listeners, asked, 0)
        again = Lasting(memory, room, listeners, asked, 0, whole)
        if whole.status != 0 or len(whole.answers) != len(asked.requests) or compared(whole, again, asked) != "none":
            raise Wrong(f"with memory: status {whole.status}, {whole.out!r}, {len(whole.answers)} answers, {whole.said!r}")
        growths = range(whole.from_here + 1, whole.to_here + 1)
        run = functools.partial(Lasting, memory, room, listeners, asked, whole=whole)
        came.refuse(memory, growths, run, lambda it: lost_and_again(whole, it, asked))
    finally:
        for it in listeners:
            it.close()


def left_by(memory, room, role, node, asked):
    """The journal that a node leaves that was asked this."""
    listeners = listening(node)
    try:
        return Served(memory, room, listeners, Asked(role, node, asked), 0).files
    finally:
        for it in listeners:
            it.close()


class Timed:
    """The same of a node with a timer of its own, up to the line and the post that it brings by itself."""

    LAST, AWAITED = b"root 1-1 aborted\n", 8

    def __init__(self, memory, room, listeners, asked, nth):
        self.records, self.busy, self.closed, self.growths = [[]] * len(asked.requests), 0, 0, 0
        self.journal = os.path.join(room, "journal")
        lay(self.journal, NO_FILES)
        with begun(memory, room, asked, nth, asked.words(self.journal, None)) as (it, out):
            self.answers = [asks(PORT + asked.node, data) for data in asked.requests] if is_up(it, out) else []
            self.first, self.said = memory.growths(), b""
            self.status = self.wait(it, out)
            time.sleep(0.2)
            self.growths = memory.growths()
        self.out, self.posts, self.files = printed(out), taken(listeners), both(self.journal)

    def wait(self, it, out):
        """The status with which it ended, or 0 where it goes on and has printed its last line."""
        end = time.time() + self.AWAITED
        while time.time() < end:
            if it.poll() is not None:
                return it.returncode
            if printed(out).endswith(self.LAST):
                return 0
            time.sleep(0.005)
        raise Wrong("what is due isn't done")


def timing(memory, room, came, asked):
    listeners = listening(asked.node)
    try:
        whole = Timed(memory, room, listeners, asked, 0)
        growths = range(whole.first + 1, whole.growths + 1)
        came.refuse(memory, growths, lambda nth: Timed(memory, room, listeners, asked, nth), lambda it: compared(whole, it, asked))
    finally:
        for it in listeners:
            it.close()


class Lasting(Served):
    """The same of a node to which all growths are refused from one on until it waits: what it posted by then, and what it posts of the rest
    at the next turn, at one behind 5 seconds, or where each request comes once more."""

    BEHIND, AGAIN = 5.2, 3

    def __init__(self, memory, room, listeners, asked, nth, whole=None):
        self.listeners, self.whole, self.later, self.come_next, self.lost = listeners, whole, [], False, 0
        super().__init__(memory, room, listeners, asked, nth)
        self.posts = self.first

    def run(self, memory, room, asked, nth, looks):
        turns = asked.turns + self.AGAIN + len(asked.requests)
        with begun(memory, room, asked, nth, asked.words(self.journal, turns), lasts=True) as (it, out):
            self.first = []
            if is_up(it, out):
                *before, last = asked.requests
                self.ask(before)
                time.sleep(0.1)
                self.from_here = memory.growths()
                self.ask([last])
                time.sleep(0.1)
                self.to_here = memory.growths()
                self.first = taken(self.listeners)
                self.files = both(self.journal)
                if self.whole and self.missing() and it.poll() is None:
                    self.go_on(asked)
                self.tick(it)
            self.said = said(it)
        self.status, self.out = it.returncode, printed(out)

    def tick(self, it):
        for _ in range(64):
            if it.poll() is not None:
                return
            asks(self.port, TICK)

    def missing(self):
        return list((collections.Counter(self.whole.first) - collections.Counter(self.first)).elements())

    def go_on(self, asked):
        page = asks(self.port, b"GET /status HTTP/1.1\r\nHost: 127.0.0.1:%d\r\n\r\n" % self.port)
        found = re.search(rb'"answers_and_posts_lost": *(\d+)', page)
        self.lost = int(found[1]) if found else -1
        self.come_next = self.has_asked([TICK])
        if not self.come_next:
            time.sleep(self.BEHIND)
            self.has_asked([TICK]) or self.has_asked(asked.requests)

    def has_asked(self, requests):
        """Asks this, and whether each post that was missing has come then."""
        for data in requests:
            asks(self.port, data)
        self.later += taken(self.listeners)
        return self.come_again()

    def come_again(self):
        """Whether each that was missing has come by now."""
        return not collections.Counter(self.missing()) - collections.Counter(self.later)


def lost_and_again(whole, it, asked):
    """What came of growths that were refused until the node waited."""
    if it.status == 0 and (it.answers, it.out) == (whole.answers, whole.out) and it.missing():
        if kept(it.files) != kept(whole.files) or collections.Counter(it.first) - collections.Counter(whole.first):
            raise Wrong(f"{len(kept(it.files))} records, {len(it.first)} of {len(whole.first)} posts")
        if not it.come_again():
            raise Wrong(f"{len(it.missing())} posts are missing, and {len(it.later)} came later")
        if it.lost != (0 if it.come_next else len(it.missing())):
            raise Wrong(f"{len(it.missing())} posts are missing, and {it.lost} were counted as lost")
        return "none" if it.come_next else f"unsent {len(it.missing())}"
    return compared(whole, it, asked)


def framed(*bodies):
    return b"".join(b"\1" + len(body).to_bytes(4, "big") + body for body in bodies) + b"\0"


START = b"\1\0\0\0\1"
BAD = b"\1\0\0\0\5\1\0"


def decided(number, addresses):
    """The decision of a transaction with a participant at each of these addresses."""
    seats = b"".join(seat.to_bytes(2, "big") + len(it).to_bytes(2, "big") + it + b"\0\0" for seat, it in enumerate(addresses, 1))
    return b"\6\0\0\0\1" + number.to_bytes(4, "big") + len(addresses).to_bytes(2, "big") + seats


def waiting():
    return decided(1, [f"{url(3)}/p/d/1-1".encode()])


def both_wait():
    """A journal with a decision for two participants."""
    return framed(START, decided(1, [f"{url(node)}/p/d/1-1".encode() for node in (3, 4)]))


def old():
    """A journal of version 1, with a decision for one participant."""
    return framed(START, waiting())


def long():
    """A journal of 65,536 bytes less a start, so that behind one more it is written anew at the end of a turn: a decision that waits for
    its one participant, and others that are over."""
    far = b"http://a.example/" + b"a" * 1900
    bodies = [b"\x0b\0\0\0\0", START, waiting()]
    for number in range(2, 10):
        bodies += [decided(number, 4 * [far]), b"\x08\0\0\0\1" + number.to_bytes(4, "big")]
    while len(framed(*bodies)) < 65_526:
        bodies.append(START)
    return framed(*bodies)


def commands(memory, room):
    """Each command's name and how it is tried."""
    def plain(words, given=b""):
        return lambda came: refusals(memory, came, lambda nth: Filtered(memory, nth, words, given))

    def tick(came):
        listener = Listener(PORT + 8)
        try:
            refusals(memory, came, lambda nth: ticked(memory, nth, listener), machine=True)
        finally:
            listener.close()

    def auditing(more):
        """An audit of the journals that a commit leaves, and of a line more."""
        def run(came):
            asked = messages(PLAIN)
            roles = {2: "coordinator", 3: "participant"}
            files = {number: left_by(memory, room, role, number, asked[number]) for number, role in roles.items()}
            lines = "".join(f"journal {url(number)} {' '.join(it.hex() or '-' for it in both)}\n" for number, both in files.items())
            plain(["audit"], (lines + more).encode())(came)
        return run

    def looking(words, file):
        """A command that reads this file as a journal."""
        def run(came):
            journal = os.path.join(room, "looked")
            lay(journal, (file, b""))
            plain([*words, journal])(came)
        return run

    def bad(came):
        journal = os.path.join(room, "bad")

        def run(nth):
            lay(journal, (BAD, b""))
            return Filtered(memory, nth, Asked("coordinator", 2, []).words(journal, 0))
        refusals(memory, came, run, machine=True)

    def node(role, number, schedule, ending, options=()):
        return lambda came: serving(memory, room, came, Asked(role, number, messages(schedule)[number], NO_FILES, ending, options))

    def behind(role, number):
        """A node that went down before its last request."""
        def run(came):
            *asked, last = messages(PLAIN)[number]
            files = left_by(memory, room, role, number, asked)
            if not kept(files):
                raise Wrong("it has promised nothing")
            serving(memory, room, came, Asked(role, number, [TICK, TICK, last], files))
        return run

    def on(file):
        """A coordinator that comes up on a journal with a decision for one participant."""
        return lambda came: serving(memory, room, came, Asked("coordinator", 2, [TICK, TICK, messages(PLAIN)[2][-1]], (file, b"")), anew=True)

    def while_out(made):
        """A coordinator to which memory is refused for a while."""
        return lambda came: lasting(memory, room, came, made())

    def two(count):
        """The first requests of a coordinator of two participants."""
        return Asked("coordinator", 2, messages(TWO)[2][:count], options=["--status"])

    def timer(came):
        timing(memory, room, came, Asked("coordinator", 2, messages("nodes 2\nbegin 1 2 700\nflush 99\n")[2]))

    return {
        "--help": plain(["--help"]),
        "help": plain(["help"]),
        "help coordinator": plain(["help", "coordinator"]),
        "--version": plain(["--version"]),
        "faulty words": plain(["cell", "--state", "Nowhere"]),
        "check": plain(["check", "--path", "/work"], WORK),
        "check, refused": plain(["check"], b"<a>"),
        "cell": plain(["cell", "--state", "None"], PREPARED),
        "make": plain(["make", "--seed", "1", "--steps", "60"]),
        "tick": tick,
        "audit": auditing(""),
        "audit, a bad line": auditing("journal\n"),
        "journal": looking(["journal"], old()),
        "journal, a bad one": looking(["journal"], BAD),
        "journal --hex": looking(["journal", "--hex", "http://a.example"], old()),
        "replay, refused": plain(["replay"], b"nodes 1\nup 1\nfoo\n"),
        "replay": plain(["replay"], PLAIN.encode()),
        "replay --bytes --settle": plain(["replay", "--bytes", "--settle"], FAULTS.encode()),
        "initiator, a bad line": plain(Asked("initiator", 1, []).words(os.path.join(room, "none"), 0), b"wait\nfoo\n"),
        "coordinator, a bad journal": bad,
        "participant": node("participant", 3, PLAIN, b"leaf 1-1 d committed\n"),
        "participant, up again": behind("participant", 3),
        "coordinator": node("coordinator", 2, PLAIN, b"root 1-1 committed\n"),
        "coordinator --log": node("coordinator", 2, PLAIN, b"root 1-1 committed\n", ["--log"]),
        "coordinator, up again": behind("coordinator", 2),
        "coordinator, an old journal": on(old()),
        "coordinator, a long journal": on(long()),
        "coordinator, interposed": node("coordinator", 3, MANY, b"sub 1-1 committed\n"),
        "coordinator, its own timer": timer,
        "initiator": node("initiator", 1, PLAIN, b"told 1-1 committed\n"),
        "for a while: asked to commit": while_out(lambda: two(5)),
        "for a while: both voted": while_out(lambda: two(7)),
        "for a while: up again": while_out(lambda: Asked("coordinator", 2, [TICK], (both_wait(), b""), options=["--status"])),
    }


KINDS = ("9", "503", "none", "8", "closed", "unsent")
ASKED_FOR = ("9", "503")


def shown(cells):
    return "".join(f"{cell:>8}" for cell in cells)


class Worker:
    """Tries commands, one after another, at its own ports and in its own folder."""

    commands = {}

    @classmethod
    def begin(cls, ports, room):
        global PORT
        PORT = ports.get()
        room = tempfile.mkdtemp(dir=room)
        cls.commands = commands(Memory(room), room)

    @classmethod
    def work(cls, job):
        name, names = job
        came = Came(names)
        try:
            cls.commands[name](came)
        except Wrong as fault:
            return False, f"{name:<28} {fault}"
        return not came.wrong, came.lines(name)


def main(words):
    if not os.access(ATX, os.X_OK):
        sys.exit("memory: build the program first: ./atx --version")
    names, begins = "--names" in words, tuple(it for it in words if it != "--names")
    with tempfile.TemporaryDirectory() as room:
        jobs = [(name, names) for name in commands(None, room) if not begins or name.startswith(begins)]
        ports = multiprocessing.SimpleQueue()
        for it in PORTS:
            ports.put(it)
        print(f"{'':<28}{shown(['growths', *KINDS])}", flush=True)
        right = True
        with multiprocessing.Pool(len(PORTS), Worker.begin, (ports, room)) as workers:
            for is_right, lines in workers.imap(Worker.work, jobs):
                print(lines, flush=True)
                right = right and is_right
    return 0 if right else 1


if __name__ == "__main__":
    sys.exit(main(sys.argv[1:]))
