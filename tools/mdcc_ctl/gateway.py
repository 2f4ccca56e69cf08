"""Commands at a gateway, over HTTP."""
from __future__ import annotations

import base64
import binascii
import http.client
import json
import socket
import urllib.error
import urllib.parse
import urllib.request
from typing import Any, Dict, List, Optional, Tuple

from .answers import DONE, NOT, REFUSED, WORDS, Answer, committed, line_of_item, not_done, unknown
from .words import Adds, Command, Get, Put, WrongWords

# Seconds for an answer: longer than a gateway takes to say that it does not know.
PATIENCE = 40.0
# The most bytes of an answer that are read.
MOST_ANSWER = 1 << 20


class Nobody(Exception):
    """Nobody listens there, so nothing was begun."""


class Lost(Exception):
    """No answer came, or none of a gateway: what came of the request is not known."""


def bytes_of(body: Any) -> bytes:
    """A body as a gateway shows it."""
    return base64.b64decode(body["base64"], validate=True) if isinstance(body, dict) else body.encode("utf-8")


def shown_as(body: bytes) -> Dict[str, str]:
    """A body as a gateway takes it."""
    return {"base64": base64.b64encode(body).decode("ascii")}


def updates_of(command: Command) -> Dict[str, Any]:
    """The transaction of a command, for a gateway."""
    if isinstance(command, Put):
        update: Dict[str, Any] = {"insert" if command.is_new else "write": command.key, "values": list(command.values)}
        if command.body is not None:
            update["body"] = shown_as(command.body)
        return {"updates": [update]} if command.is_new else {"reads": [command.key], "updates": [update]}
    assert isinstance(command, Adds)
    updates = [{"add": key, "amounts": list(amounts)} for key, amounts in command.amounts.items()]
    # Nobody knows here whether an order was sent before.
    return {"updates": updates} if command.order is None else {"order": command.order, "again": True, "updates": updates}


def answer_of(command: Command, status: int, document: Dict[str, Any]) -> Answer:
    """What the answer to a transaction says."""
    outcome, error = document.get("outcome"), document.get("error")
    if status == 200 and outcome == "committed":
        return committed(document.get("transaction"))
    if not isinstance(error, dict) or status in (200, 500, 504) or outcome == "unknown":
        return unknown(command, error["cause"] if isinstance(error, dict) and "cause" in error else f"an answer of status {status}")
    return refusal_of(status, error, outcome == "aborted")


def refusal_of(status: int, error: Dict[str, Any], is_aborted: bool = False) -> Answer:
    """What an error says after which nothing happened."""
    code = NOT if is_aborted else WORDS if status == 422 else REFUSED
    return not_done(code, str(error.get("cause", f"status {status}")), error.get("key"), str(error.get("advice", "")))


def line_of_shown(item: Dict[str, Any]) -> str:
    if not item["found"]:
        return f"{item['key']} absent"
    return line_of_item(item["key"], item["version"], tuple(item["values"]), bytes_of(item["body"]))


def is_address(url: str) -> bool:
    """Whether it is one of HTTP, with a host."""
    try:
        parts = urllib.parse.urlsplit(url)
        return parts.scheme in ("http", "https") and bool(parts.hostname) and parts.port != 0 and not (parts.query or parts.fragment)
    except ValueError:
        return False


class Gateway:
    """A gateway at an address, which is asked one command."""

    def __init__(self, url: str, patience: float = PATIENCE):
        if not is_address(url):
            raise WrongWords(f"{url!r} is no address of a gateway, such as http://127.0.0.1:8081")
        self.url, self.patience = url.rstrip("/"), patience

    def call(self, method: str, path: str, document: Optional[Dict[str, Any]] = None) -> Tuple[int, Dict[str, Any]]:
        """The status and the document that a request is answered with. Raises Nobody, Lost."""
        body = None if document is None else json.dumps(document).encode()
        asked = urllib.request.Request(self.url + path, body, {"Content-Type": "application/json"} if body else {}, method=method)
        try:
            try:
                with urllib.request.urlopen(asked, timeout=self.patience) as response:
                    status, read = response.status, response.read(MOST_ANSWER)
            except urllib.error.HTTPError as error:
                with error:
                    status, read = error.code, error.read(MOST_ANSWER)
            answer = json.loads(read)
        except urllib.error.URLError as error:
            # No name, or nobody at the address: nothing was sent.
            if isinstance(error.reason, (ConnectionRefusedError, socket.gaierror)):
                raise Nobody(str(error.reason)) from None
            raise Lost(str(error.reason)) from None
        except ValueError:
            raise Lost("what answers is no gateway") from None
        except (OSError, http.client.HTTPException) as error:
            raise Lost(str(error) or type(error).__name__) from None
        if not isinstance(answer, dict):
            raise Lost("what answers is no gateway")
        return status, answer

    def ask(self, command: Command) -> Answer:
        """Does a command."""
        is_read = not isinstance(command, (Put, Adds))
        try:
            return self.answer(command)
        except Nobody as nobody:
            return not_done(REFUSED, f"no gateway at {self.url}: {nobody}", advice="see whether it runs; the gateway of another centre may serve you")
        except Lost as lost:
            return not_done(REFUSED, f"{self.url}: {lost}") if is_read else unknown(command, str(lost))

    def answer(self, command: Command) -> Answer:
        if isinstance(command, Get):
            return self.get(command.keys)
        if isinstance(command, (Put, Adds)):
            return answer_of(command, *self.call("POST", "/v1/transactions", updates_of(command)))
        status, document = self.call("GET", "/healthz")
        if status != 200 or document.get("answers") is not True:
            return refusal_of(status, error_in(document))
        return Answer(DONE, (f"gateway at {self.url}: centre {document.get('centre')} answers, in epoch {document.get('epoch')}",))

    def get(self, keys: Tuple[str, ...]) -> Answer:
        query = "&".join("key=" + urllib.parse.quote(key) for key in keys)
        status, document = self.call("GET", "/v1/items?" + query)
        if status != 200:
            return refusal_of(status, error_in(document))
        try:
            items: List[Dict[str, Any]] = document["items"]
            return Answer(DONE if all(item["found"] for item in items) else NOT, tuple(map(line_of_shown, items)))
        except (KeyError, TypeError, AttributeError, binascii.Error):
            raise Lost("what answers is no gateway") from None


def error_in(document: Dict[str, Any]) -> Dict[str, Any]:
    """The error of an answer; an empty one where there is none."""
    error = document.get("error")
    return error if isinstance(error, dict) else {}
