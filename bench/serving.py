#!/usr/bin/env python3
"""Times requests to a node that serves, over the loopback, beside Python's http.server that answers 202 to the same bytes.

    bench/serving.py [COUNT]

Each of COUNT (500) rounds asks, one after another on connections of their own: a `Committed` of a transaction that the coordinator
doesn't know, which leaves no record; and a transaction without participants: `CreateCoordinationContext`, `Register` for completion,
and `Commit`, whose decision is written and synced before the answer, and told by a post. It prints requests a second, and the ratios to
http.server for the same bytes, in one run. It stands outside the gate, and wants a built `atx`, or another program in ATX. Ports 9201 to 9203 are to be free.
"""
import http.server
import os
import re
import socket
import subprocess
import sys
import tempfile
import threading
import time

TOP = os.path.dirname(os.path.dirname(os.path.abspath(__file__)))
ATX = os.environ.get("ATX", os.path.join(TOP, "crates", "atx", "out", "atx"))
NODE, PLAIN, PEER = 9201, 9202, 9203
WSA = "http://www.w3.org/2005/08/addressing"
COOR = "http://docs.oasis-open.org/ws-tx/wscoor/2006/06"
AT = "http://docs.oasis-open.org/ws-tx/wsat/2006/06"
HOME = f"http://127.0.0.1:{PEER}/i/1-1"


def request(path, action, body, more=""):
    """An HTTP request with an envelope."""
    envelope = (f'<s:Envelope xmlns:s="http://schemas.xmlsoap.org/soap/envelope/" xmlns:wsa="{WSA}" xmlns:c="{COOR}" xmlns:t="{AT}"><s:Header>'
                f"<wsa:To>http://127.0.0.1:{NODE}{path}</wsa:To><wsa:Action>{action}</wsa:Action>{more}</s:Header><s:Body>{body}</s:Body></s:Envelope>").encode()
    head = (f"POST {path} HTTP/1.1\r\nHost: 127.0.0.1:{NODE}\r\nContent-Type: text/xml; charset=utf-8\r\n"
            f"Content-Length: {len(envelope)}\r\nConnection: close\r\n\r\n").encode()
    return head + envelope


def reply_to(number):
    return (f"<wsa:MessageID>urn:uuid:6a2e2d54-6f6c-5c6a-9d6e-{number:012x}</wsa:MessageID>"
            f"<wsa:ReplyTo><wsa:Address>{WSA}/anonymous</wsa:Address></wsa:ReplyTo>")


def committed():
    more = f"<wsa:ReplyTo><wsa:Address>{WSA}/none</wsa:Address></wsa:ReplyTo>"
    return request("/c/d/9-9/1", f"{AT}/Committed", "<t:Committed/>", more)


def create(number):
    return request("/activation", f"{COOR}/CreateCoordinationContext",
                   f"<c:CreateCoordinationContext><c:CoordinationType>{AT}</c:CoordinationType></c:CreateCoordinationContext>", reply_to(number))


def register(number, path):
    return request(path, f"{COOR}/Register",
                   f"<c:Register><c:ProtocolIdentifier>{AT}/Completion</c:ProtocolIdentifier><c:ParticipantProtocolService>"
                   f"<wsa:Address>{HOME}</wsa:Address></c:ParticipantProtocolService></c:Register>", reply_to(number))


def commit(path):
    more = (f"<wsa:From><wsa:Address>{HOME}</wsa:Address></wsa:From>"
            f"<wsa:ReplyTo><wsa:Address>{WSA}/none</wsa:Address></wsa:ReplyTo>")
    return request(path, f"{AT}/Commit", "<t:Commit/>", more)


def ask(port, text):
    """Posts the bytes on a connection of their own, and returns the whole answer."""
    with socket.create_connection(("127.0.0.1", port)) as it:
        it.sendall(text)
        answer = b""
        while part := it.recv(65536):
            answer += part
    return answer


class Plain(http.server.BaseHTTPRequestHandler):
    """Reads the body, and answers 202."""

    def do_POST(self):
        self.rfile.read(int(self.headers["Content-Length"]))
        self.send_response(202)
        self.send_header("Content-Length", "0")
        self.end_headers()

    def log_message(self, *words):
        pass


def take_posts(listener, count):
    """Takes what the node posts; count[0] is how many posts."""
    while True:
        try:
            it, _ = listener.accept()
        except OSError:
            return
        with it:
            while part := it.recv(65536):
                if b"</s:Envelope>" in part:
                    count[0] += 1
                    it.sendall(b"HTTP/1.1 202 Accepted\r\nContent-Length: 0\r\n\r\n")
                    break


def path_in(answer, name):
    """The path of the address in this element of an answer."""
    found = re.search(rb"<[a-z]*:?" + name + rb"[^>]*>.*?Address[^>]*>http://127\.0\.0\.1:\d+(/[^<]*)<", answer, re.S)
    if not found:
        sys.exit(f"no {name.decode()} in {answer!r}")
    return found[1].decode()


def clocked(took, name, port, text, status):
    start = time.perf_counter()
    answer = ask(port, text)
    took.setdefault(name, []).append(time.perf_counter() - start)
    if not answer.startswith(b"HTTP/1.") or answer.split()[1] != status:
        sys.exit(f"{name}: {answer!r}")
    return answer


def main(words):
    count = int(words[0]) if words else 500
    took, posts = {}, [0]
    listener = socket.create_server(("127.0.0.1", PEER))
    threading.Thread(target=take_posts, args=(listener, posts), daemon=True).start()
    plain = http.server.HTTPServer(("127.0.0.1", PLAIN), Plain)
    threading.Thread(target=plain.serve_forever, daemon=True).start()
    with tempfile.TemporaryDirectory() as room:
        out = os.path.join(room, "out")
        with open(out, "w", encoding="utf-8") as told:
            node = subprocess.Popen([ATX, "coordinator", "--listen", f"127.0.0.1:{NODE}", "--journal", os.path.join(room, "journal"),
                                     "--turns", str(4 * count)], stdin=subprocess.DEVNULL, stdout=told)
        for _ in range(500):
            with open(out, encoding="utf-8") as told:
                if told.read().startswith("up "):
                    break
            time.sleep(0.01)
        for number in range(count):
            clocked(took, "Committed", NODE, committed(), b"202")
            context = clocked(took, "Create", NODE, create(number), b"200")
            registered = clocked(took, "Register", NODE, register(number, path_in(context, b"RegistrationService")), b"200")
            decides = commit(path_in(registered, b"CoordinatorProtocolService"))
            clocked(took, "Commit", NODE, decides, b"202")
            clocked(took, "http.server", PLAIN, committed(), b"202")
        status = node.wait()
        with open(out, encoding="utf-8") as told:
            lines = told.read().splitlines()
    listener.close()
    plain.shutdown()
    decided = sum(line.endswith(" committed") for line in lines)
    time.sleep(0.1)
    if status or decided != count:
        sys.exit(f"status {status}, {decided} of {count} committed")
    print(f"{count} transactions committed, {posts[0]} told")
    base = sorted(took["http.server"])[count // 2]
    for name, times in took.items():
        times.sort()
        middle = times[count // 2]
        print(f"{name:12} {1 / middle:8.0f} requests a second (median {middle * 1e6:6.0f} us, 9 of 10 within {times[count * 9 // 10] * 1e6:6.0f} us), "
              f"{middle / base:5.2f} of http.server's time")
    return 0


if __name__ == "__main__":
    sys.exit(main(sys.argv[1:]))
