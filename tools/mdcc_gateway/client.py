"""Asks a gateway, from asyncio, over one connection that is kept. For tools; an application has its own client of HTTP."""
from __future__ import annotations

import asyncio
import json
from typing import Any, Dict, Optional, Tuple


class Lost(ConnectionError):
    """The connection ended before the answer: what came of the request is not known."""


class Client:
    """One connection, made when it is needed. One request at a time."""

    def __init__(self, host: str, port: int, seconds: float = 60.0):
        self.host, self.port, self.seconds = host, port, seconds
        self.reader: Optional[asyncio.StreamReader] = None
        self.writer: Optional[asyncio.StreamWriter] = None

    def close(self) -> None:
        if self.writer is not None:
            self.writer.close()
        self.reader = self.writer = None

    async def ask(self, method: str, path: str, document: object = None) -> Tuple[int, Dict[str, Any]]:
        """The status and the document that a request is answered with. Raises Lost where it is not answered, ConnectionRefusedError where there
        is no connection, so that nothing was sent: nobody listens, or ends amid that."""
        body = b"" if document is None else json.dumps(document).encode()
        kind = "" if document is None else "Content-Type: application/json\r\n"
        head = f"{method} {path} HTTP/1.1\r\nHost: {self.host}\r\n{kind}Content-Length: {len(body)}\r\n\r\n"
        if self.writer is None:
            try:
                self.reader, self.writer = await asyncio.open_connection(self.host, self.port)
            except OSError as error:
                raise ConnectionRefusedError(error.errno, str(error)) from error
        try:
            self.writer.write(head.encode() + body)
            return await asyncio.wait_for(self.answer(), self.seconds)
        except (OSError, EOFError, ValueError, asyncio.TimeoutError) as error:
            self.close()
            raise Lost(str(error)) from error

    async def answer(self) -> Tuple[int, Dict[str, Any]]:
        assert self.reader is not None
        lines = (await self.reader.readuntil(b"\r\n\r\n")).decode("latin-1").split("\r\n")
        headers = dict(line.lower().split(": ", 1) for line in lines[1:] if line)
        body = await self.reader.readexactly(int(headers["content-length"]))
        if headers.get("connection") == "close":
            self.close()
        return int(lines[0].split()[1]), json.loads(body)
