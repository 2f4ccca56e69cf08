"""Requests of HTTP/1.1, read from bytes as they come."""
from __future__ import annotations

import re
from dataclasses import dataclass, field
from typing import Dict, List, Optional, Tuple
from urllib.parse import parse_qsl, unquote

from .faults import Fault

MOST_TARGET, MOST_HEAD, MOST_HEADERS, MOST_BODY = 4096, 8192, 64, 65536
TOKEN = re.compile(rb"[!#$%&'*+.^_`|~0-9A-Za-z-]+")
VERSION = re.compile(rb"HTTP/(\d)\.(\d)")
TARGET = re.compile(rb"[!-~]+")
LENGTH = re.compile(rb"\d{1,9}")
CHUNK = re.compile(rb"([0-9A-Fa-f]{1,8})[ \t]*(?:;[^\r\n]*)?")
END = b"\r\n\r\n"
# Headers that may stand but once.
SINGLE = (b"content-length", b"host", b"content-type", b"transfer-encoding")


@dataclass
class Request:
    """A whole request. `path` is as it was sent, without the query; `is_last` says that the connection ends after the answer."""

    method: str
    path: str
    query: str = ""
    headers: Dict[bytes, bytes] = field(default_factory=dict)
    body: bytes = b""
    is_last: bool = False

    def pairs(self) -> List[Tuple[str, str]]:
        """The query as names and values."""
        if not self.query:
            return []
        try:
            return parse_qsl(self.query, keep_blank_values=True, strict_parsing=True, errors="strict", max_num_fields=256)
        except ValueError as error:
            raise Fault("unknown_query", f"the query cannot be read: {error}") from None

    def below(self, path: str) -> str:
        """What follows a path, with its escapes resolved."""
        try:
            return unquote(self.path[len(path):], errors="strict")
        except UnicodeDecodeError:
            raise Fault("bad_request", "the address has escapes that are no UTF-8") from None


def request_line(line: bytes) -> Tuple[str, str, str, bool]:
    """Method, path and query, and whether the version is 1.0."""
    words = line.split(b" ")
    version = VERSION.fullmatch(words[-1])
    if len(words) != 3 or not version or not TOKEN.fullmatch(words[0]):
        raise Fault("bad_request", "the first line is no request line")
    if version[1] != b"1":
        raise Fault("http_version")
    if len(words[1]) > MOST_TARGET:
        raise Fault("target_too_long", f"the address has {len(words[1])} bytes: at most {MOST_TARGET} are taken")
    if not TARGET.fullmatch(words[1]):
        raise Fault("bad_request", "the address has bytes that are to be escaped")
    target = words[1].decode("ascii")
    if target.startswith("http://"):
        target = "/" + target[7:].partition("/")[2]
    path, _, query = target.partition("?")
    return words[0].decode("ascii"), path, query, version[2] == b"0"


def headers_in(lines: List[bytes]) -> Dict[bytes, bytes]:
    """The headers by their names in small letters."""
    if len(lines) > MOST_HEADERS:
        raise Fault("head_too_large", f"there are {len(lines)} headers: at most {MOST_HEADERS} are taken")
    headers: Dict[bytes, bytes] = {}
    for line in lines:
        name, colon, value = line.partition(b":")
        if not colon or not TOKEN.fullmatch(name) or b"\n" in value or b"\r" in value or b"\0" in value:
            raise Fault("bad_request", "a line of the head is no header")
        name = name.lower()
        if name in headers:
            if name in SINGLE:
                raise Fault("bad_request", f"the header {name.decode('ascii')} stands twice")
            value = headers[name] + b"," + value
        headers[name] = value.strip()
    return headers


class Reader:
    """Makes requests of the bytes of a connection."""

    __slots__ = ("data", "searched", "request", "length", "body", "wants_go")

    def __init__(self) -> None:
        self.data = bytearray()
        self.searched = 0
        # a request whose head is read, and how many bytes of its body are to come; None where it comes in chunks
        self.request: Optional[Request] = None
        self.length: Optional[int] = 0
        self.body = bytearray()
        # whether the client waits to be told to send the body
        self.wants_go = False

    @property
    def is_amid(self) -> bool:
        """Whether a request has begun and is not whole."""
        return bool(self.data) or self.request is not None

    def next(self) -> Optional[Request]:
        """The next request, once it is whole. Raises Fault where the bytes are none, and nothing can be read after that."""
        if self.request is None and not self.read_head():
            return None
        is_whole = self.read_chunks() if self.length is None else self.read_length(self.length)
        if not is_whole:
            return None
        request, self.request = self.request, None
        assert request is not None
        request.body, self.body = bytes(self.body), bytearray()
        self.wants_go = False
        return request

    def read_head(self) -> bool:
        data = self.data
        while data.startswith(b"\r\n"):
            del data[:2]
        end = data.find(END, max(0, self.searched - 3))
        if end < 0:
            self.searched = len(data)
            if len(data) > MOST_HEAD:
                raise Fault("target_too_long" if b"\r\n" not in data else "head_too_large")
            return False
        if end > MOST_HEAD:
            raise Fault("head_too_large", f"the head has {end} bytes: at most {MOST_HEAD} are taken")
        lines = bytes(data[:end]).split(b"\r\n")
        del data[:end + 4]
        self.searched = 0
        method, path, query, is_old = request_line(lines[0])
        headers = headers_in(lines[1:])
        if not is_old and b"host" not in headers:
            raise Fault("bad_request", "the header Host is missing")
        connection = headers.get(b"connection", b"").lower()
        self.request = Request(method, path, query, headers, is_last=is_old or b"close" in connection)
        self.length = self.length_of(headers)
        self.wants_go = headers.get(b"expect", b"").lower() == b"100-continue" and not data and self.length != 0
        return True

    @staticmethod
    def length_of(headers: Dict[bytes, bytes]) -> Optional[int]:
        """How long the body is; None where it is chunked."""
        coding, length = headers.get(b"transfer-encoding"), headers.get(b"content-length")
        if coding is not None:
            if length is not None:
                raise Fault("bad_request", "the body has both a length and a transfer coding")
            if coding.lower() != b"chunked":
                raise Fault("transfer_coding")
            return None
        if length is None:
            return 0
        if not LENGTH.fullmatch(length):
            raise Fault("bad_request" if not length.isdigit() else "body_too_large", "Content-Length is no length")
        if int(length) > MOST_BODY:
            raise Fault("body_too_large", f"the body has {int(length)} bytes: at most {MOST_BODY} are taken")
        return int(length)

    def read_length(self, length: int) -> bool:
        if len(self.data) < length:
            return False
        self.body += self.data[:length]
        del self.data[:length]
        return True

    def read_chunks(self) -> bool:
        """Takes chunks; says whether the last one came. What follows it up to an empty line is passed over."""
        data = self.data
        while True:
            line = data.find(b"\r\n")
            if line < 0:
                if len(data) > MOST_TARGET:
                    raise Fault("bad_request", "a chunk has no length")
                return False
            size = CHUNK.fullmatch(data, 0, line)
            if not size:
                raise Fault("bad_request", "a chunk has no length")
            count = int(size[1], 16)
            if len(self.body) + count > MOST_BODY:
                raise Fault("body_too_large", f"the body is longer than {MOST_BODY} bytes")
            if count == 0:
                return self.read_trailer(line)
            if len(data) < line + 2 + count + 2:
                return False
            if data[line + 2 + count:line + 4 + count] != b"\r\n":
                raise Fault("bad_request", "a chunk is not of its length")
            self.body += data[line + 2:line + 2 + count]
            del data[:line + 4 + count]

    def read_trailer(self, line: int) -> bool:
        end = self.data.find(END, line)
        if end < 0:
            if len(self.data) > MOST_HEAD:
                raise Fault("head_too_large")
            return False
        del self.data[:end + 4]
        return True
