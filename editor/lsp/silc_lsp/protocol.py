"""Messages of the Language Server Protocol over two streams: JSON after a header with its length."""
import json
import queue
import re
import threading
from typing import Any, BinaryIO

PARSE_ERROR, INVALID_REQUEST, METHOD_NOT_FOUND, INVALID_PARAMS, INTERNAL_ERROR = -32700, -32600, -32601, -32602, -32603
REQUEST_FAILED = -32803
# The length of a message may stand behind the rest of a message whose own header was bad.
LENGTH = re.compile(rb"content-length:[ \t]*(\d{1,18})[ \t]*\r?\n?$", re.I)
MOST_BYTES = 1 << 26
CHANGE = "textDocument/didChange"


class BadMessage(Exception):
    """Why the bytes of a stream are no message."""


class Connection:
    """A stream of messages in, and one of messages out."""

    def __init__(self, reader: BinaryIO, writer: BinaryIO) -> None:
        self.reader, self.writer = reader, writer

    def read(self) -> dict | None:
        """The next message, or nothing at the end. Raises BadMessage, after which the next one can be read."""
        length = self.length()
        if length is None:
            return None
        body = self.reader.read(length)
        if len(body) < length:
            return None
        try:
            message = json.loads(body)
        except (ValueError, RecursionError) as fault:
            raise BadMessage(f"a message is no JSON: {fault}") from fault
        # Nothing is the end of the stream.
        if message is None:
            raise BadMessage("a message is an object")
        return message

    def length(self) -> int | None:
        """The length of the next message, which stands in its header, or nothing at the end."""
        length, lines = None, 0
        for line in iter(self.reader.readline, b""):
            if not line.strip():
                if length is not None and length <= MOST_BYTES:
                    return length
                if lines:
                    raise BadMessage("a header has no length of a message, or one that is too great")
                continue
            found, lines = LENGTH.search(line), lines + 1
            length = int(found[1]) if found else length
        return None

    def send(self, **message: Any) -> None:
        body = json.dumps({"jsonrpc": "2.0", **message}).encode()
        self.writer.write(b"Content-Length: %d\r\n\r\n%s" % (len(body), body))
        self.writer.flush()

    def answer(self, request: dict, result: Any) -> None:
        self.send(id=request["id"], result=result)

    def refuse(self, number: Any, code: int, why: str) -> None:
        self.send(id=number, error={"code": code, "message": why})

    def notify(self, method: str, params: dict) -> None:
        self.send(method=method, params=params)


class Inbox:
    """The messages that have come, which a thread reads, and how many changes of each document are among them."""

    def __init__(self, connection: Connection) -> None:
        self.connection, self.waiting, self.changes = connection, queue.Queue(), {}
        threading.Thread(target=self.fill, daemon=True).start()

    def fill(self) -> None:
        message = ""
        while message is not None:
            try:
                message = self.connection.read()
            except BadMessage as fault:
                message = fault
            except (OSError, ValueError):
                message = None
            uri = changed(message)
            if uri is not None:
                self.changes[uri] = self.changes.get(uri, 0) + 1
            self.waiting.put(message)

    def next(self, can_wait: bool) -> dict | BadMessage | None:
        """The next message, or None at the end. Raises queue.Empty where there is none yet, and none is waited for."""
        return self.waiting.get(block=can_wait)


def changed(message: object) -> str | None:
    """The document that a message changes, or nothing."""
    if not isinstance(message, dict) or message.get("method") != CHANGE or "id" in message:
        return None
    params = message.get("params")
    document = params.get("textDocument") if isinstance(params, dict) else None
    uri = document.get("uri") if isinstance(document, dict) else None
    return uri if isinstance(uri, str) else None
