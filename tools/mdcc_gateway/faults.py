"""What the gateway answers where it does not do what it was asked: each error with a name, a status of HTTP, a cause and advice.

Every error of a transaction but `unknown` and `internal` says that nothing happened of what was sent.
"""
from __future__ import annotations

from typing import Dict, NamedTuple, Optional


class Kind(NamedTuple):
    """An error as it is where nothing more is known of it."""

    status: int
    cause: str
    advice: str


KINDS: Dict[str, Kind] = {
    # of the request
    "bad_request": Kind(400, "this is no request of HTTP/1.1", "send a request line, headers and a body as RFC 9112 has them"),
    "unknown_query": Kind(400, "the address has a query that this path does not take", "leave it out, or see the paths in /openapi.json"),
    "not_json": Kind(400, "the body is no JSON", "send one JSON object in UTF-8, without a member twice"),
    "no_such_path": Kind(404, "there is nothing at this path", "see the paths in /openapi.json"),
    "wrong_method": Kind(405, "this path does not take this method", "use one of those in the header Allow"),
    "slow": Kind(408, "the request was not whole in time", "send it at once, over a new connection"),
    "body_too_large": Kind(413, "the body is too long", "an order has at most eight updates, which need less"),
    "target_too_long": Kind(414, "the address is too long", "ask for fewer keys at once"),
    "wrong_type": Kind(415, "the body is not said to be JSON", "send the header Content-Type: application/json, and no Content-Encoding"),
    "unknown_member": Kind(422, "there is no such member", "leave it out; /openapi.json has all members"),
    "missing_member": Kind(422, "a member is missing", "add it; /openapi.json has all members"),
    "wrong_value": Kind(422, "a value is not one that may stand here", "see what may in /openapi.json"),
    "not_read": Kind(422, "a write or a keep rests on a read, and the key is not among the reads",
                     "add the key, or the item as it was shown, to reads"),
    "draft": Kind(422, "the updates are no transaction", "see that all numbers are within their bounds, and amounts no wider than these"),
    "head_too_large": Kind(431, "the headers are too long or too many", "send fewer"),
    "transfer_coding": Kind(501, "the body has a transfer coding that is not known here", "send it with Content-Length, or chunked"),
    "http_version": Kind(505, "this version of HTTP is not served", "use HTTP/1.1"),
    # of what was asked for
    "missing": Kind(404, "the centre knows no record of this key", "where it is new, ask again in a moment; else insert it"),
    "no_order": Kind(404, "the centre has not heard that this order happened; it may be open, or never have been sent",
                     "send the order again with \"again\": true, or DELETE it, which has it never happen: both find out"),
    "bounds": Kind(409, "a number would leave its bounds, as when nothing is left to sell", "tell the user; read the item to see what is left"),
    "absent": Kind(409, "a record that is added to or kept is not there", "where it is new, send this again in a moment; else insert it"),
    "moved": Kind(409, "a record was written or added to since it was read", "read it again, decide again, and send that"),
    "there": Kind(409, "a record that was to be inserted is there", "read it: somebody else has it"),
    "behind": Kind(409, "the centre does not know all adds of a record, so nobody can write it here now",
                   "try another centre, and have the records made equally new: see `heal` in docs/OPERATING.md"),
    "cancelled": Kind(409, "the order was ended, and never happens", "make a new order with another name"),
    "contention": Kind(409, "others were faster, each time", "send it again in a moment"),
    "order_in_use": Kind(409, "an order of this name with other updates is under way here", "give each order a name of its own"),
    # of the gateway and its centre
    "internal": Kind(500, "the gateway has a fault", "look at its error stream; what came of an order its name tells"),
    "centre_away": Kind(503, "the centre does not answer", "see whether its node runs; the gateway of another centre may serve you now"),
    "busy": Kind(503, "too many transactions are open", "send it again in a moment"),
    "connections": Kind(503, "too many connections are open", "use fewer, and keep them"),
    "ending": Kind(503, "the gateway is ending", "connect again, or to the gateway of another centre"),
    "unknown": Kind(504, "no end was told in time: it happened, or may still happen, or it did not", ""),
}


class Fault(Exception):
    """An error as it is answered. `at` is the place in the request, `key` the record that was the cause."""

    def __init__(self, name: str, cause: Optional[str] = None, advice: Optional[str] = None, at: Optional[str] = None,
                 key: Optional[str] = None):
        super().__init__(name)
        self.name, self.at, self.key = name, at, key
        kind = KINDS[name]
        self.status, self.cause, self.advice = kind.status, cause or kind.cause, advice or kind.advice
        self.allow: Optional[str] = None

    def document(self) -> Dict[str, str]:
        """The error as it stands in the answer."""
        members = {"name": self.name, "cause": self.cause, "advice": self.advice}
        members.update({name: value for name, value in (("at", self.at), ("key", self.key)) if value is not None})
        return members


def unknown(order: Optional[str]) -> Fault:
    """What came of a transaction is not known: how to find out."""
    if order is None:
        return Fault("unknown", advice="without an order nothing tells what came of it; read its records, and give the next one an order")
    return Fault("unknown", advice=f"GET /v1/transactions/{order} says once it happened; the same order sent again with \"again\": true "
                                   f"happens at most once and finds out; DELETE /v1/transactions/{order} has it never happen, unless it did")
