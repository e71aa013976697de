"""A service's side of WS-AtomicTransaction: Durable2PC over the service's own SQLite database.

`Participant` runs a service, an object with the methods of `Service`. What it has promised stands in its database, written in one
SQLite transaction with its data: so a service that is killed at any moment knows at its next start what it voted and hasn't heard the
end of, and asks. Nothing here is of one coordinator alone. WS-C and WS-AT stand for the sections of WS-Coordination 1.2 and
WS-AtomicTransaction 1.2.
"""
import contextlib
import http.client
import http.server
import sqlite3
import time
import uuid
import xml.etree.ElementTree as ET
from collections.abc import Callable
from typing import Protocol
from urllib.parse import urlsplit
from xml.sax.saxutils import escape

NAMES = {
    "s": "http://schemas.xmlsoap.org/soap/envelope/",
    "wsa": "http://www.w3.org/2005/08/addressing",
    "wscoor": "http://docs.oasis-open.org/ws-tx/wscoor/2006/06",
    "wsat": "http://docs.oasis-open.org/ws-tx/wsat/2006/06",
}
DECLARED = " ".join(f'xmlns:{prefix}="{name}"' for prefix, name in NAMES.items())

# A row for each transaction that the service is in: the service's own name of it, the Identifier of its context, the endpoint of its
# coordinator, its state by the table of WS-AT 10 (Active or PreparedSuccess), and when it is given up if nobody asks for a vote.
SCHEMA = """
PRAGMA foreign_keys = ON;
CREATE TABLE IF NOT EXISTS wsat (tx TEXT PRIMARY KEY, context TEXT UNIQUE, coordinator TEXT, state TEXT, until REAL);
"""
ASK_EVERY = 5.0  # seconds


class Service(Protocol):
    """What a service does. Each method runs within a SQLite transaction, and changes nothing where it raises."""

    schema: str  # its tables; rows that refer to wsat(tx) ON DELETE CASCADE end with their transaction

    def work(self, db: sqlite3.Connection, tx: str, request: ET.Element) -> None:
        """Notes a request of the application in this transaction."""

    def prepare(self, db: sqlite3.Connection, tx: str) -> bool:
        """Sees to it that commit will do: True; False where there is nothing to commit. It vetoes by raising."""

    def commit(self, db: sqlite3.Connection, tx: str) -> None:
        """Keeps what prepare promised."""

    def rollback(self, db: sqlite3.Connection, tx: str) -> None:
        """Takes back what prepare did."""


class Refused(Exception):
    """The other side answered with a fault."""


def envelope(header: str, body: str) -> bytes:
    return f"<s:Envelope {DECLARED}><s:Header>{header}</s:Header><s:Body>{body}</s:Body></s:Envelope>".encode()


def opened(text: bytes) -> tuple[ET.Element, ET.Element]:
    """The header of an envelope, and its body."""
    whole = ET.fromstring(text)
    header, body = (whole.find(f"s:{part}", NAMES) for part in ("Header", "Body"))
    return header if header is not None else ET.Element("none"), body if body is not None else ET.Element("none")


def post(to: ET.Element, action: str, header: str, body: str) -> ET.Element:
    """Posts a message to an endpoint, and gives the body that is answered on the connection, if there is one. The endpoint's
    reference parameters become headers (WS-Addressing 1.0 SOAP Binding, section 3.3)."""
    address = to.findtext("wsa:Address", "", NAMES).strip()
    header = f"<wsa:To>{escape(address)}</wsa:To><wsa:Action>{action}</wsa:Action>{header}"
    for it in to.iterfind("wsa:ReferenceParameters/*", NAMES):
        it = ET.fromstring(ET.tostring(it))
        it.set(f"{{{NAMES['wsa']}}}IsReferenceParameter", "true")
        header += ET.tostring(it, encoding="unicode")
    url = urlsplit(address)
    kind = {"Content-Type": "text/xml; charset=utf-8", "SOAPAction": f'"{action}"'}
    with contextlib.closing(http.client.HTTPConnection(url.hostname or "", url.port, timeout=10)) as connection:
        connection.request("POST", url.path or "/", envelope(header, body), kind)
        answer = connection.getresponse()
        said = answer.read()
    if answer.status == 202:
        return ET.Element("none")
    if answer.status != 200:
        raise Refused(f"{address}: status {answer.status} {said.decode(errors='replace')}")
    return opened(said)[1]


def request(to: ET.Element, action: str, body: str) -> ET.Element:
    """Posts a request of WS-C, whose answer comes on the connection."""
    reply = f"<wsa:ReplyTo><wsa:Address>{NAMES['wsa']}/anonymous</wsa:Address></wsa:ReplyTo>"
    header = f"<wsa:MessageID>{uuid.uuid4().urn}</wsa:MessageID>{reply}"
    return post(to, f"{NAMES['wscoor']}/{action}", header, f"<wscoor:{action}>{body}</wscoor:{action}>")


def notify(to: ET.Element, name: str, source: str) -> None:
    """Posts a notification, which is one way (WS-AT 8). Where it is lost, the other side asks for it again."""
    header = (
        f"<wsa:From><wsa:Address>{escape(source)}</wsa:Address></wsa:From>"
        f"<wsa:ReplyTo><wsa:Address>{NAMES['wsa']}/none</wsa:Address></wsa:ReplyTo>"
    )
    with contextlib.suppress(OSError, http.client.HTTPException, ET.ParseError, Refused):
        post(to, f"{NAMES['wsat']}/{name}", header, f"<wsat:{name}/>")


def register(context: ET.Element, protocol: str, address: str) -> ET.Element:
    """Registers an address for a protocol in the transaction of a context; gives the coordinator's endpoint (WS-C 3.2)."""
    service = context.find("wscoor:RegistrationService", NAMES)
    if service is None or context.findtext("wscoor:CoordinationType", "", NAMES).strip() != NAMES["wsat"]:
        raise Refused("not the context of an atomic transaction")
    body = (
        f"<wscoor:ProtocolIdentifier>{NAMES['wsat']}/{protocol}</wscoor:ProtocolIdentifier>"
        f"<wscoor:ParticipantProtocolService><wsa:Address>{escape(address)}</wsa:Address></wscoor:ParticipantProtocolService>"
    )
    seat = request(service, "Register", body).find("wscoor:RegisterResponse/wscoor:CoordinatorProtocolService", NAMES)
    if seat is None:
        raise Refused("no RegisterResponse")
    return seat


class Handler(http.server.BaseHTTPRequestHandler):
    """Takes the application's requests at the path /, and notifications at others. A notification is answered before it is acted on,
    since the coordinator may wait for that, and is posted to on the way."""

    server: "Listener"
    timeout = 10  # seconds for a request to come

    def do_POST(self) -> None:
        header, body = opened(self.rfile.read(int(self.headers["Content-Length"])))
        if self.path != "/":
            self.answer(202, b"")
            self.server.told(self.path, header, body)
            return
        try:
            self.server.asked(header, body)
        except Exception as fault:
            code = f"<faultcode>s:Server</faultcode><faultstring>{escape(str(fault))}</faultstring>"
            self.answer(500, envelope("", f"<s:Fault>{code}</s:Fault>"))
        else:
            self.answer(200, envelope("", ""))

    def answer(self, status: int, text: bytes) -> None:
        with contextlib.suppress(OSError):  # the other side may have gone
            self.send_response(status)
            self.send_header("Content-Type", "text/xml; charset=utf-8")
            self.send_header("Content-Length", str(len(text)))
            self.end_headers()
            self.wfile.write(text)

    def log_message(self, *_: object) -> None:
        pass


class Listener(http.server.HTTPServer):
    """Listens at HOST:PORT, where others reach it. One thread does one thing after another."""

    def __init__(self, address: str) -> None:
        host, _, port = address.rpartition(":")
        super().__init__((host, int(port)), Handler)
        self.base = f"http://{address}"

    def asked(self, header: ET.Element, body: ET.Element) -> None:
        """A request of the application; to raise is to refuse it."""
        raise Refused("nothing can be asked here")

    def told(self, path: str, header: ET.Element, body: ET.Element) -> None:
        """A notification."""


class Participant(Listener):
    """A service that takes part in transactions, in each at the path /wsat/TX."""

    def __init__(self, service: Service, address: str, database: str) -> None:
        super().__init__(address)
        self.service, self.asks_at = service, 0.0
        self.db = sqlite3.connect(database)
        self.db.executescript(SCHEMA + service.schema)
        with self.db:  # what an earlier process began and didn't vote on is given up: abort is presumed
            self.db.execute("UPDATE wsat SET until = 0 WHERE state = 'Active'")

    def asked(self, header: ET.Element, body: ET.Element) -> None:
        """Has the service note a request, and enlists for Durable2PC where it is the first of its transaction. What comes behind the
        vote is refused: it would be no part of what was promised."""
        context = header.find("wscoor:CoordinationContext", NAMES)
        if context is None:
            raise Refused("no CoordinationContext")
        identifier = context.findtext("wscoor:Identifier", "", NAMES).strip()
        known = self.db.execute("SELECT tx, state FROM wsat WHERE context = ?", (identifier,)).fetchone()
        tx, state = known or (uuid.uuid4().hex, "Active")
        if state != "Active":
            raise Refused("the vote is given")
        seat = None if known else register(context, "Durable2PC", f"{self.base}/wsat/{tx}")
        with self.db:
            if seat is not None:
                until = time.time() + float(context.findtext("wscoor:Expires", "inf", NAMES)) / 1000
                row = (tx, identifier, ET.tostring(seat, encoding="unicode"), until)
                self.db.execute("INSERT INTO wsat VALUES (?, ?, ?, 'Active', ?)", row)
            self.service.work(self.db, tx, body[0])

    def told(self, path: str, header: ET.Element, body: ET.Element) -> None:
        """Does as the coordinator says, and answers: the participant's view of the table in WS-AT 10."""
        tx, said = path.rpartition("/")[2], body[0].tag.rpartition("}")[2]
        row = self.db.execute("SELECT context, state, coordinator FROM wsat WHERE tx = ?", (tx,)).fetchone()
        context, state, seat = row or (tx, "None", None)
        to = ET.fromstring(seat) if seat else header.find("wsa:From", NAMES)
        match state, said:
            case "Active", "Prepare":
                answer = self.vote(tx)
            case "Active", "Rollback":
                answer = self.end(tx, "Aborted")
            case "PreparedSuccess", "Prepare":
                answer = "Prepared"
            case "PreparedSuccess", "Commit":
                answer = self.end(tx, "Committed", self.service.commit)
            case "PreparedSuccess", "Rollback":
                answer = self.end(tx, "Aborted", self.service.rollback)
            case "None", "Commit":  # it has ended, and the coordinator hasn't heard of that
                answer = "Committed"
            case "None", "Prepare" | "Rollback":
                answer = "Aborted"
            case _:  # a fault, or the Commit of what hasn't voted
                print(f"{context} {state}: ignores {said}", flush=True)
                return
        print(f"{context} {state}: {said} -> {answer}", flush=True)
        if to is not None:
            self.say(answer, to, tx)

    def vote(self, tx: str) -> str:
        """Asks the service for its vote. Prepared is written with what the service did for it, before anybody hears it."""
        try:
            with self.db:
                if self.service.prepare(self.db, tx):
                    self.db.execute("UPDATE wsat SET state = 'PreparedSuccess' WHERE tx = ?", (tx,))
                    return "Prepared"
        except Exception as veto:
            print(f"veto: {veto}", flush=True)
            return self.end(tx, "Aborted")
        return self.end(tx, "ReadOnly")

    def end(self, tx: str, answer: str, act: Callable[[sqlite3.Connection, str], None] | None = None) -> str:
        """Has the service act for the last time, and forgets the transaction, both or neither."""
        with self.db:
            if act:
                act(self.db, tx)
            self.db.execute("DELETE FROM wsat WHERE tx = ?", (tx,))
        return answer

    def say(self, name: str, to: ET.Element, tx: str) -> None:
        notify(to, name, f"{self.base}/wsat/{tx}")

    def service_actions(self) -> None:
        """At the start, and then every few seconds: says Prepared again wherever the outcome hasn't come, and gives up what nobody
        asked about in time. `serve_forever` calls it between requests."""
        if time.monotonic() < self.asks_at:
            return
        for tx, seat in self.db.execute("SELECT tx, coordinator FROM wsat WHERE state = 'PreparedSuccess'").fetchall():
            self.say("Prepared", ET.fromstring(seat), tx)
        late = self.db.execute("SELECT tx, coordinator FROM wsat WHERE state = 'Active' AND until < ?", (time.time(),))
        for tx, seat in late.fetchall():
            self.say(self.end(tx, "Aborted"), ET.fromstring(seat), tx)
        self.asks_at = time.monotonic() + ASK_EVERY

    def run(self) -> None:
        """Serves until the process is killed."""
        print("up", flush=True)
        self.serve_forever()
