#!/usr/bin/env python3
"""Has atx take the largest of everything that it takes, at once, and says how long each takes, how much memory, and how much stack.

    bench/largest.py [FOLDER] [NAME..]

    check, cell     an envelope of 65,536 bytes, 4,096 elements, 32 levels and 32 attributes on an element, with a Key and a Value of 256
                    bytes, an Identifier of 2,048 and endpoints of 2,048, whose reference parameters reach the deepest level
    a turn          the same as a request to a participant: a head of 8,192 bytes, and a body of 131,072 raw bytes, of which as many chunks
                    have one byte as fit, sent byte by byte; and one of 65,536 chunks of one byte, which is answered 413
    512 seats       a transaction of 512 durable participants, at endpoints of 2,048 bytes, which commits: all are asked to prepare, have
                    voted, and stand in one record; one more is refused. Then the coordinator comes up again with that record
    replay, make    10,000 lines
    audit           8 journals on lines of 1,048,576 bytes in all, whose records are decisions without participants
    a journal       of 8 MiB, on which a coordinator starts, and which `journal` prints
    4 GiB           a journal of 4,294,967,285 bytes, where a file may have 4,294,967,295 and a start takes 10. It is written into FOLDER,
                    needs 5 GiB there and some 12 GiB of memory, and is left out where no FOLDER (with a `/`) is named

Each is printed with the seconds of a processor that it took, its memory at most, and its least stack: the smallest limit of the stack
(`ulimit -s`, in steps of 4 KiB) with which it still passes. Below that the system ends the program by a signal. The audit and the journal
of 4 GiB, which take long, are run once, with the least stack that a small audit and a journal of 8 MiB want. It stands outside the
gate, and wants a built `atx` (or another program, that ATX names) and `cc`; ports 9311 and 9312 are to be free.
"""
import os
import re
import resource
import socket
import subprocess
import sys
import tempfile
import threading
import time

from full import write

TOP = os.path.dirname(os.path.dirname(os.path.abspath(__file__)))
ATX = os.environ.get("ATX", os.path.join(TOP, "crates", "atx", "out", "atx"))
NODE, PEER = 9311, 9312
SOAP = "http://schemas.xmlsoap.org/soap/envelope/"
WSA = "http://www.w3.org/2005/08/addressing"
COOR = "http://docs.oasis-open.org/ws-tx/wscoor/2006/06"
AT = "http://docs.oasis-open.org/ws-tx/wsat/2006/06"
WORK = "http://example.org/atx/work/1"
LEVELS, ELEMENTS, BYTES, RAW, HEAD = 32, 4096, 65_536, 131_072, 8_192
SEATS = 512
MOST = 2**32 - 1 - 10
SMALL = 8 * 2**20
STACKS = (16, 8192)  # KiB

# Runs a program with a limit of its stack, and says what it took. (Of a child that Python starts itself, the memory would be Python's.)
LAUNCHER = r"""
#include <stdio.h>
#include <stdlib.h>
#include <sys/personality.h>
#include <sys/resource.h>
#include <sys/wait.h>
#include <unistd.h>

int main(int count, char **words) {
    FILE *said = fopen(words[1], "w");
    int child = fork();
    if (!child) {
        struct rlimit most = {1024ul * strtoul(words[2], 0, 10), 1024ul * strtoul(words[2], 0, 10)};
        setrlimit(RLIMIT_STACK, &most);
        personality(ADDR_NO_RANDOMIZE);
        char *none[] = {0};
        execve(words[3], words + 3, none);
        _exit(127);
    }
    int status;
    struct rusage used;
    wait4(child, &status, 0, &used);
    fprintf(said, "%d %ld.%06ld %ld.%06ld %ld\n", WIFSIGNALED(status) ? -WTERMSIG(status) : WEXITSTATUS(status),
            (long)used.ru_utime.tv_sec, (long)used.ru_utime.tv_usec, (long)used.ru_stime.tv_sec, (long)used.ru_stime.tv_usec, used.ru_maxrss);
    fclose(said);
    return 0;
}
"""


class Ran:
    """A program that runs, and then what it took: status, seconds, MB."""

    launcher = room = None

    @classmethod
    def prepare(cls, room):
        source, cls.launcher, cls.room = os.path.join(room, "launcher.c"), os.path.join(room, "launcher"), room
        with open(source, "w", encoding="utf-8") as file:
            file.write(LAUNCHER)
        subprocess.run([os.environ.get("CC", "cc"), "-O1", "-w", "-o", cls.launcher, source], check=True)

    def __init__(self, stack, words, given=b""):
        self.said, self.out, source = (os.path.join(self.room, name) for name in ("said", "out", "given"))
        with open(source, "wb") as file:
            file.write(given)
        with open(source, "rb") as given_in, open(self.out, "wb") as out:
            self.process = subprocess.Popen([self.launcher, self.said, str(stack), ATX, *words], stdin=given_in, stdout=out)

    def printed(self):
        with open(self.out, "rb") as out:
            return out.read()

    def is_up(self):
        while self.process.poll() is None:
            if self.printed().startswith(b"up "):
                return True
            time.sleep(0.002)
        return False

    def ended(self):
        self.process.wait()
        with open(self.said, encoding="utf-8") as said:
            status, user, system, most = said.read().split()
        self.status, self.seconds, self.memory = int(status), float(user) + float(system), int(most) / 1000
        return self


class Unfit(Exception):
    """Something didn't go as it should."""


class Gone(Exception):
    """The node ended before it was asked for all."""


def endpoint(address, above):
    """An endpoint of 2,048 bytes below so many elements, with reference parameters as deep as they may be there."""
    deep = LEVELS - above - 1
    canonical = f'<wsa:ReferenceParameters xmlns:wsa="{WSA}">{"<x>" * (deep - 1)}<x/>{"</x>" * (deep - 1)}</wsa:ReferenceParameters>'
    inside = f"<a:ReferenceParameters>{'<x>' * deep}{'</x>' * deep}</a:ReferenceParameters>"
    return f"<a:Address>{address}{'e' * (2048 - len(address) - len(canonical))}</a:Address>{inside}"


def enveloped(headers, body):
    spaces = f"xmlns:s='{SOAP}' xmlns:a='{WSA}' xmlns:c='{COOR}' xmlns:t='{AT}' xmlns:w='{WORK}'"
    return f"<s:Envelope {spaces}><s:Header>{headers}</s:Header><s:Body>{body}</s:Body></s:Envelope>"


def attributes():
    return "".join(f" a{number}=''" for number in range(32))


def filled(make):
    """An envelope at every limit, of a function that makes one with this at its body element's end."""
    deep = "<x>" * (LEVELS - 3) + "</x>" * (LEVELS - 3) + f"<x{attributes()}/>"
    elements = len(re.findall(r"<[^/!?]", make(deep)))
    whole = make(deep + "<x/>" * (ELEMENTS - elements) + "\0")
    return whole.replace("\0", "t" * (BYTES + 1 - len(whole.encode()))).encode()


def work(more):
    context = (f"<c:CoordinationContext><c:Identifier>{'i' * 2048}</c:Identifier><c:CoordinationType>{AT}</c:CoordinationType>"
               f"<c:RegistrationService>{endpoint(f'http://127.0.0.1:{PEER}/r', 4)}</c:RegistrationService></c:CoordinationContext>")
    headers = (f"<a:Action>{WORK}/Work</a:Action><a:MessageID>urn:m</a:MessageID><a:From>{endpoint('http://n1.example/f', 3)}</a:From>"
               f"<a:ReplyTo>{endpoint(f'http://127.0.0.1:{PEER}/i', 3)}</a:ReplyTo>{context}")
    return enveloped(headers, f"<w:Work><w:Key>{'k' * 256}</w:Key><w:Value>{'v' * 256}</w:Value><w:Kind>durable</w:Kind><w:Vote>prepared</w:Vote>{more}</w:Work>")


def prepared(more):
    headers = f"<a:To>http://n2.example/c/d/1-1/1</a:To><a:Action>{AT}/Prepared</a:Action><a:From>{endpoint('http://n3.example/p', 3)}</a:From>"
    return enveloped(headers, f"<t:Prepared>{more}</t:Prepared>")


def filtering(words, given, begins):
    """A command that reads its input whole."""
    def run(stack):
        it = Ran(stack, words, given).ended()
        if it.status == 0 and not it.printed().startswith(begins):
            raise Unfit(f"it printed {it.printed()[:200]!r}")
        return it

    return run


def is_whole(data):
    """Whether a post is there with all of its body."""
    head, end, body = data.partition(b"\r\n\r\n")
    size = re.search(rb"\r\nContent-Length: (\d+)", head)
    return bool(end and size) and len(body) >= int(size[1])


class Peer:
    """Takes posts, and keeps how many there were and how many bytes, or the bytes themselves."""

    def __init__(self):
        self.count, self.last = 0, b""
        self.socket = socket.create_server(("127.0.0.1", PEER), backlog=1024)
        threading.Thread(target=self.take, daemon=True).start()

    def take(self):
        while True:
            it, _ = self.socket.accept()
            with it:
                data = b""
                while not is_whole(data) and (part := it.recv(65536)):
                    data += part
                self.last, self.count = data, self.count + 1

    def wait(self, count, node):
        end = time.time() + 120
        while self.count < count:
            if node.process.poll() is not None:
                end = min(end, time.time() + 1)
            if time.time() > end:
                raise Gone if node.process.poll() is not None else Unfit(f"{self.count} of {count} posts came")
            time.sleep(0.002)


def ask(data, bytewise=False):
    """The answer; nothing where the node is gone."""
    try:
        with socket.create_connection(("127.0.0.1", NODE), timeout=120) as it:
            it.setsockopt(socket.IPPROTO_TCP, socket.TCP_NODELAY, 1)
            if bytewise:
                for at in range(len(data)):
                    it.send(data[at:at + 1])
            else:
                it.sendall(data)
            answer = b""
            while part := it.recv(65536):
                answer += part
            return answer
    except (ConnectionRefusedError, ConnectionResetError, BrokenPipeError):
        return b""


def posted(path, body):
    return f"POST {path} HTTP/1.1\r\nHost: a\r\nContent-Length: {len(body)}\r\n\r\n".encode() + body


def chunk(data):
    return b"%x\r\n" % len(data) + data + b"\r\n"


def chunked(body):
    """A request at every limit of a head and of chunks."""
    head = b"POST /work HTTP/1.1\r\nHost: a\r\nTransfer-Encoding: chunked\r\nF: \r\n\r\n"
    head = head.replace(b"F: ", b"F: " + b"f" * (HEAD - len(head)))
    ones = (RAW - len(body) - 32) // 5
    raw = b"".join(chunk(body[at:at + 1]) for at in range(ones)) + chunk(body[ones:])
    return head + raw + b"0;" + b"e" * (RAW - len(raw) - 6) + b"\r\n\r\n"


def serve(stack, role, journal, turns):
    return Ran(stack, [role, "--listen", f"127.0.0.1:{NODE}", "--journal", journal, "--turns", str(turns)])


def answered(data, status, bytewise=False):
    answer = ask(data, bytewise)
    if not answer:
        raise Gone
    if not answer.startswith(b"HTTP/1.1 %d " % status):
        raise Unfit(f"it answered {answer[:200]!r}")
    return answer


def turning(peer, body):
    """A participant that takes the largest request, and one that is too large."""
    largest = chunked(body)
    ones = b"POST /work HTTP/1.1\r\nHost: a\r\nTransfer-Encoding: chunked\r\n\r\n" + (chunk(b" ") * BYTES)[:RAW + 1]

    def run(stack):
        peer.count = 0
        with tempfile.TemporaryDirectory() as folder:
            it = serve(stack, "participant", os.path.join(folder, "journal"), 2)
            try:
                it.is_up()
                answered(largest, 202, bytewise=stack == STACKS[1])
                answered(ones, 413)
                peer.wait(1, it)
                if not peer.last.startswith(b"POST /reee"):
                    raise Unfit(f"it posted {peer.last[:200]!r}")
            except Gone:
                pass
            return it.ended()

    return run


def path_in(answer, name):
    found = re.search(rb"<[a-z0-9]*:?" + name + rb"[^>]*>.*?Address[^>]*>http://127\.0\.0\.1:\d+(/[^<]*)<", answer, re.S)
    if not found:
        raise Unfit(f"no {name.decode()} in {answer[:200]!r}")
    return found[1].decode()


def asked(path, action, headers, body):
    return posted(path, enveloped(f"<a:Action>{action}</a:Action>{headers}", body).encode())


def register(number, protocol, path):
    service = f"<c:ParticipantProtocolService>{endpoint(f'http://127.0.0.1:{PEER}/{number}/', 4)}</c:ParticipantProtocolService>"
    body = f"<c:Register><c:ProtocolIdentifier>{AT}/{protocol}</c:ProtocolIdentifier>{service}</c:Register>"
    return asked(path, f"{COOR}/Register", f"<a:MessageID>urn:{number}</a:MessageID>", body)


def notice(path, name):
    headers = f"<a:From><a:Address>http://127.0.0.1:{PEER}/f</a:Address></a:From>"
    return asked(path, f"{AT}/{name}", headers, f"<t:{name}/>")


def seating(peer):
    """A coordinator of a transaction with as many seats as there may be."""
    def begin():
        create = f"<c:CreateCoordinationContext><c:CoordinationType>{AT}</c:CoordinationType></c:CreateCoordinationContext>"
        context = answered(asked("/activation", f"{COOR}/CreateCoordinationContext", "<a:MessageID>urn:c</a:MessageID>", create), 200)
        at = path_in(context, b"RegistrationService")
        completion = path_in(answered(register(0, "Completion", at), 200), b"CoordinatorProtocolService")
        seats = [path_in(answered(register(number, "Durable2PC", at), 200), b"CoordinatorProtocolService") for number in range(1, SEATS + 1)]
        if b"CannotRegisterParticipant" not in answered(register(SEATS + 1, "Durable2PC", at), 500):
            raise Unfit("there is a seat more")
        return completion, seats

    def commit(completion, seats):
        answered(notice(completion, "Commit"), 202)
        for seat in seats:
            answered(notice(seat, "Prepared"), 202)

    def recover(node, seats, seen):
        answered(posted("/tick", b""), 202)
        peer.wait(seen + SEATS, node)
        for seat in seats:
            answered(notice(seat, "Committed"), 202)

    def run(stack):
        peer.count = 0
        with tempfile.TemporaryDirectory() as folder:
            journal = os.path.join(folder, "journal")
            it = serve(stack, "coordinator", journal, 2 * SEATS + 4)
            try:
                it.is_up()
                completion, seats = begin()
                commit(completion, seats)
            except Gone:
                pass
            if it.ended().status:
                return it
            if it.printed() != b"up 1\nroot 1-1 committed\n" or os.path.getsize(journal) < SEATS * 2048:
                raise Unfit(f"it printed {it.printed()!r}, and its journal has {os.path.getsize(journal)} bytes")
            again, seen = serve(stack, "coordinator", journal, SEATS + 1), peer.count
            try:
                again.is_up()
                recover(again, seats, seen)
            except Gone:
                pass
            again.ended()
            again.seconds, again.memory = again.seconds + it.seconds, max(again.memory, it.memory)
            return again

    return run


def replaying():
    lines = ["nodes 8"]
    number = 0
    while len(lines) < 9_990:
        number += 1
        node = 1 + number % 2
        mine = (number + 1) // 2
        lines += [f"begin {node} {3 + number % 3} 60000", "flush 99", f"work {node} 1-{mine} {6 + number % 3} d prepared", "flush 99", f"commit {node} 1-{mine}", "flush 99"]
    return ("\n".join(lines) + "\n").encode()


def starting(folder, size):
    def run(stack):
        path = os.path.join(folder, "largest.journal")
        try:
            write(path, size)
            it = serve(stack, "coordinator", path, 0).ended()
            if it.status == 0 and os.path.getsize(path) != size + 10:
                raise Unfit("no start was recorded")
            return it
        finally:
            for name in (path, path + ".1"):
                if os.path.exists(name):
                    os.remove(name)

    return run


def printing(folder, size):
    def run(stack):
        path = os.path.join(folder, "largest.journal")
        try:
            write(path, size)
            return filtering(["journal", path], b"", b"version 2\n")(stack)
        finally:
            os.remove(path)

    return run


def auditing(size):
    """Of eight journals, on lines of so many bytes in all."""
    def line(node):
        begin = f"journal http://n{node}.example "
        bodies = [b"\x0b\0\0\0\0", b"\1\0\0\0\1"]
        count = (size // 8 - len(begin) - 44) // 32
        bodies += [b"\6\0\0\0\1" + number.to_bytes(4, "big") + b"\0\0" for number in range(1, count + 1)]
        file = b"".join(b"\1" + len(it).to_bytes(4, "big") + it for it in bodies) + b"\0"
        return f"{begin}{file.hex()} -\n"

    return filtering(["audit"], "".join(line(node) for node in range(1, 9)).encode(), b"agreed committed ")


def least(run):
    """The least stack with which it passes, in KiB."""
    low, high = STACKS
    while high - low > 4:
        middle = (low + high) // 8 * 4
        if run(middle).status == 0:
            high = middle
        else:
            low = middle
    return high


def shown(name, it, stack):
    print(f"{name:<28}{it.seconds:>10.3f}{it.memory:>10.1f}{stack:>12}", flush=True)
    if it.status:
        raise Unfit(f"status {it.status}")


def measured(name, run, small):
    """Runs it with much stack, and says the least; where there is a small one like it, runs it with the least stack of that."""
    if small:
        stack = least(small)
        shown(name, run(stack), stack)
        return
    it = run(STACKS[1])
    shown(name, it, least(run) if it.status == 0 else 0)


def cases(room, folder):
    """Each case's name, how it is run with a limit of its stack, and a small one like it where it takes long."""
    largest, peer = filled(work), Peer()
    yield "check of a small one", filtering(["check", "--path", "/work"], work("").encode(), b"message Work\n"), None
    yield "check", filtering(["check", "--path", "/work"], largest, b"message Work\n"), None
    yield "cell", filtering(["cell", "--state", "None"], filled(prepared), b"send Rollback -> None\n"), None
    yield "a turn", turning(peer, largest), None
    yield "512 seats", seating(peer), None
    yield "replay", filtering(["replay"], replaying(), b"up 1 1\n"), None
    yield "make", filtering(["make", "--seed", "1", "--steps", "9999"], b"", b"steps 9999 "), None
    yield "audit", auditing(2**20), auditing(2**14)
    yield "a journal of 8 MiB", starting(room, SMALL), None
    yield "a journal of 8 MiB, printed", printing(room, SMALL), None
    if folder:
        yield "a journal of 4 GiB", starting(folder, MOST), starting(room, SMALL)


def main(words):
    if not os.access(ATX, os.X_OK):
        sys.exit("largest: build the program first: ./atx --version")
    folder = next((it for it in words if "/" in it), None)
    names = tuple(it for it in words if "/" not in it)
    _, hard = resource.getrlimit(resource.RLIMIT_STACK)
    if hard != resource.RLIM_INFINITY and hard < STACKS[1] * 1024:
        sys.exit(f"largest: the stack's limit is {hard} bytes")
    with tempfile.TemporaryDirectory() as room:
        Ran.prepare(room)
        print(f"{'':<28}{'seconds':>10}{'MB':>10}{'stack, KiB':>12}", flush=True)
        try:
            for name, run, small in cases(room, folder):
                if not names or name.startswith(names):
                    measured(name, run, small)
        except Unfit as fault:
            sys.exit(f"largest: {fault}")
    return 0


if __name__ == "__main__":
    sys.exit(main(sys.argv[1:]))
