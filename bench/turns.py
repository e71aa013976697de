#!/usr/bin/env python3
"""Times a turn of a node on a machine in memory, beside a plain program that does the same steps, in one run.

Usage: bench/turns.py [COUNT [ROUNDS]]

The program `turn_loop` gives a node a request COUNT times (default 1,000): a Prepare of a participant that it doesn't have (it answers
and posts Aborted), a Prepared of a transaction that it doesn't have (it posts Rollback), and a Register with a transaction (it posts the
response). Beside it a Python program splits the same bytes, has expat read the envelope, looks the item up in a dictionary, and makes
the bytes of the answer and of the post. None of these writes a record. Then the same with 1, 128 and 1,024 transactions live at the
node. Each figure is the least of ROUNDS runs (default 5), net of a run of no rounds; ratios are those of one run.
"""
import os
import subprocess
import sys

from envelopes import least
from trees import tree_of

TOP = os.path.dirname(os.path.dirname(os.path.abspath(__file__)))
PROGRAM = os.environ.get("TURN_LOOP", os.path.join(TOP, "crates", "turn_loop", "out", "turn_loop"))
WSA = "http://www.w3.org/2005/08/addressing"
COOR = "http://docs.oasis-open.org/ws-tx/wscoor/2006/06"
AT = "http://docs.oasis-open.org/ws-tx/wsat/2006/06"


def posted(path, action, headers, body):
    text = (f'<s:Envelope xmlns:s="http://schemas.xmlsoap.org/soap/envelope/" xmlns:a="{WSA}"><s:Header>'
            f"<a:To>http://n2.example{path}</a:To><a:Action>{action}</a:Action>{headers}</s:Header><s:Body>{body}</s:Body></s:Envelope>")
    return (f"POST {path} HTTP/1.1\r\nHost: n2.example\r\nContent-Type: text/xml; charset=utf-8\r\nSOAPAction: \"{action}\"\r\n"
            f"Content-Length: {len(text)}\r\nConnection: close\r\n\r\n{text}").encode()


SENDER = f"<a:From><a:Address>http://n3.example/p/d/9-9</a:Address></a:From><a:ReplyTo><a:Address>{WSA}/none</a:Address></a:ReplyTo>"
REPLY = f"<a:MessageID>urn:uuid:6a2e2d54-6f6c-5c6a-9d6e-1b1f0f3c2a11</a:MessageID><a:ReplyTo><a:Address>http://n3.example/p/d/9-9</a:Address></a:ReplyTo>"
REGISTER = (f'<c:Register xmlns:c="{COOR}"><c:ProtocolIdentifier>{AT}/Durable2PC</c:ProtocolIdentifier><c:ParticipantProtocolService>'
            f"<a:Address>http://n3.example/p/d/9-9</a:Address></c:ParticipantProtocolService></c:Register>")
REQUESTS = {
    "Prepare": posted("/p/d/9-9", f"{AT}/Prepare", SENDER, f'<t:Prepare xmlns:t="{AT}"/>'),
    "Prepared": posted("/c/d/9-9/1", f"{AT}/Prepared", SENDER, f'<t:Prepared xmlns:t="{AT}"/>'),
    "Register": posted("/registration/1-1", f"{COOR}/Register", REPLY, REGISTER),
}


class Plain:
    """The same steps, without a check: a dictionary of items, and texts put together."""

    def __init__(self):
        self.items = {"/registration/1-1": {}}
        self.sent = []

    @staticmethod
    def child(kids, name):
        return next((kid[2] for kid in kids if kid[0] == name), None)

    def turn(self, data):
        head, _, body = data.partition(b"\r\n\r\n")
        lines = head.decode().split("\r\n")
        path = lines[0].split()[1]
        fields = dict(line.split(": ", 1) for line in lines[1:])
        envelope = tree_of(body[:int(fields["Content-Length"])])[2]
        soap = "http://schemas.xmlsoap.org/soap/envelope/ "
        headers, inside = self.child(envelope, soap + "Header"), self.child(envelope, soap + "Body")[0]
        sender = self.child(headers, f"{WSA} From") or self.child(headers, f"{WSA} ReplyTo")
        to = "".join(self.child(sender, f"{WSA} Address"))
        name = inside[0].split()[1]
        item = self.items.get(path)
        if name == "Register" and item is not None:
            seat = item.setdefault(to, len(item) + 1)
            reply = (f"{COOR}/RegisterResponse", f'<c:RegisterResponse xmlns:c="{COOR}"><c:CoordinatorProtocolService>'
                     f"<a:Address>http://n2.example/c/d/1-1/{seat}</a:Address></c:CoordinatorProtocolService></c:RegisterResponse>")
        else:
            answer = "Aborted" if name == "Prepare" else "Rollback"
            reply = (f"{AT}/{answer}", f'<t:{answer} xmlns:t="{AT}"/>')
        self.sent.append(b"HTTP/1.1 202 Accepted\r\nContent-Length: 0\r\nConnection: close\r\n\r\n")
        host, _, rest = to[len("http://"):].partition("/")
        text = (f'<s:Envelope xmlns:s="http://schemas.xmlsoap.org/soap/envelope/" xmlns:a="{WSA}"><s:Header><a:To>{to}</a:To><a:Action>{reply[0]}</a:Action>'
                f"<a:From><a:Address>http://n2.example{path}</a:Address></a:From></s:Header><s:Body>{reply[1]}</s:Body></s:Envelope>")
        self.sent.append((f"POST /{rest} HTTP/1.1\r\nHost: {host}\r\nContent-Type: text/xml; charset=utf-8\r\nSOAPAction: \"{reply[0]}\"\r\n"
                          f"Content-Length: {len(text)}\r\nConnection: close\r\n\r\n{text}").encode())


def looped(count, live, data):
    def call():
        answer = subprocess.run([PROGRAM, str(count), str(live)], input=data, stdout=subprocess.PIPE, check=True)
        if answer.stdout != f"live {live}, taken {count} of {count}\n".encode():
            sys.exit(f"bench: {answer.stdout}")

    return call


def plainly(count, data):
    def call():
        plain = Plain()
        for _ in range(count):
            plain.turn(data)

    return call


def turned(count, rounds, live, data):
    """The seconds of one turn."""
    return (least(rounds, looped(count, live, data)) - least(rounds, looped(0, live, data))) / count


def main():
    count = int(sys.argv[1]) if len(sys.argv) > 1 else 1_000
    rounds = int(sys.argv[2]) if len(sys.argv) > 2 else 5
    if not os.access(PROGRAM, os.X_OK):
        sys.exit("bench: build the program first: rt run in crates/turn_loop")
    print(f"{count} times{'':<8}{'bytes':>8}{'us each':>10}{'plain':>10}{'ratio':>8}")
    for name, data in REQUESTS.items():
        each = turned(count, rounds, 1, data)
        plain = least(rounds, plainly(count, data)) / count
        print(f"{name:<18}{len(data):>8}{each * 1e6:>10.1f}{plain * 1e6:>10.1f}{each / plain:>8.2f}")
    print(f"{'live':<18}{'us each':>8}{'to 1':>10}")
    one = None
    for live in (1, 128, 1024):
        each = turned(count, rounds, live, REQUESTS["Prepared"])
        one = each if one is None else one
        print(f"{live:<18}{each * 1e6:>8.1f}{each / one:>10.2f}")


if __name__ == "__main__":
    main()
