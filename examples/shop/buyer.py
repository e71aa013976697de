"""buyer.py COORDINATOR HOST:PORT COUNT PRICE SERVICE ..: buys so many books at each SERVICE, all or none.

The buyer begins a transaction at the coordinator (WS-C 3.1), registers for Completion (WS-AT 3.2), calls the services with the
context in a header, and asks for Commit, or for Rollback where a service refused. It prints the outcome, which is posted to HOST:PORT.
"""
import http.client
import sys
import time
import xml.etree.ElementTree as ET

import wsat

ASK_EVERY = 5.0  # seconds, until the outcome comes
PATIENCE = 60.0  # seconds, and then the buyer goes away


class Buyer(wsat.Listener):
    """The initiator's end of Completion, which is told the outcome."""

    outcome = ""
    timeout = ASK_EVERY

    def told(self, path: str, header: ET.Element, body: ET.Element) -> None:
        said = body[0].tag.rpartition("}")[2]
        # else it is a fault: the coordinator has forgotten the transaction, as one does that ended or went down undecided
        self.outcome = said.lower() if said in ("Committed", "Aborted") else "unknown"


def place(url: str) -> ET.Element:
    return ET.fromstring(f'<to xmlns:wsa="{wsat.NAMES["wsa"]}"><wsa:Address>{url}</wsa:Address></to>')


def begin(coordinator: str) -> ET.Element:
    """A new transaction, which the coordinator gives up after a minute: its context."""
    kind = f"<wscoor:CoordinationType>{wsat.NAMES['wsat']}</wscoor:CoordinationType>"
    activation = place(f"{coordinator}/activation")
    answer = wsat.request(activation, "CreateCoordinationContext", f"<wscoor:Expires>60000</wscoor:Expires>{kind}")
    context = answer.find(".//wscoor:CoordinationContext", wsat.NAMES)
    if context is None:
        raise wsat.Refused("no context")
    context.set(f"{{{wsat.NAMES['s']}}}mustUnderstand", "1")
    return context


def call(service: str, context: ET.Element, count: str, price: str) -> None:
    header = ET.tostring(context, encoding="unicode")
    body = f'<shop:Buy xmlns:shop="http://shop.example/" account="alice" item="book" count="{count}" price="{price}"/>'
    wsat.post(place(service), "http://shop.example/Buy", header, body)


def buy(coordinator: str, address: str, count: str, price: str, *services: str) -> str:
    with Buyer(address) as buyer:
        context = begin(coordinator)
        seat = wsat.register(context, "Completion", f"{buyer.base}/outcome")
        wish = "Commit"
        try:
            for service in services:
                call(service, context, count, price)
        except (OSError, http.client.HTTPException, wsat.Refused) as fault:
            print(fault, file=sys.stderr)
            wish = "Rollback"
        end = time.monotonic() + PATIENCE
        while not buyer.outcome and time.monotonic() < end:
            wsat.notify(seat, wish, f"{buyer.base}/outcome")
            buyer.handle_request()
    return buyer.outcome or "in doubt"


if __name__ == "__main__":
    try:
        print(buy(*sys.argv[1:]))
    except (OSError, http.client.HTTPException, wsat.Refused) as fault:
        sys.exit(f"buyer: {fault}")
