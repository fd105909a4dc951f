"""The two streams of the protocol, by Debian's python3-pylsp-jsonrpc, and the requests of a client."""

import json
import logging
import os
import queue
import threading
import time
from collections.abc import Callable, Iterator, Mapping
from concurrent.futures import Future
from contextlib import suppress
from math import inf
from typing import Any, BinaryIO

from pylsp_jsonrpc.endpoint import Endpoint
from pylsp_jsonrpc.exceptions import JsonRpcException, JsonRpcRequestCancelled
from pylsp_jsonrpc.streams import JsonRpcStreamWriter

INVALID_PARAMS = -32602
INTERNAL_ERROR = -32603
NOT_INITIALIZED = -32002
INVALID_REQUEST = -32600
PARSE_ERROR = -32700
CONTENT_MODIFIED = -32801
VERSION = "2.0"
_LENGTH = b"content-length:"
_LONGEST_HEAD = 4_096
_LONGEST_BODY = 64 << 20
# Comes after the last message.
_END = object()


class RequestError(JsonRpcException):  # type: ignore[misc]
    """That a request is answered by an error: a text, and one of the codes above."""


class Promise(Future[Any]):
    """The answer to a request, which comes later. One that is cancelled is answered at once, and nothing else then."""

    def cancel(self) -> bool:
        if not self.done():
            self.set_exception(JsonRpcRequestCancelled())
        return True

    def answer_unless_done(self, result: Any) -> None:
        """Answers, where nobody has."""
        if not self.done():
            self.set_result(result)

    def answer_error_unless_done(self, code: int, message: str) -> None:
        """Answers by an error, where nobody has answered."""
        if not self.done():
            self.set_exception(RequestError(message, code))


def _read_message_bodies(file: BinaryIO) -> Iterator[bytes]:
    """The octets of each message, which a line with their number precedes; lines that say none are left out."""
    length: int | None = None
    while line := file.readline(_LONGEST_HEAD):
        if line.lower().startswith(_LENGTH):
            with suppress(ValueError):
                length = int(line[len(_LENGTH) :])
        elif not line.strip():
            if length is not None and 0 <= length <= _LONGEST_BODY:
                body = file.read(length)
                if len(body) < length:
                    return  # the client went away
                yield body
            length = None


def _parse_message_or_make_error(body: bytes) -> object:
    """The message that octets hold, or the answer to some that hold no JSON."""
    try:
        return json.loads(body)
    except (ValueError, RecursionError) as error:
        return RequestError(f"no JSON: {error}", PARSE_ERROR)


class Transport:
    """Reads messages in a thread of its own and keeps them until they are taken; and writes answers."""

    def __init__(self, source: BinaryIO, target: BinaryIO, handlers: Mapping[str, Callable[[Any], Any]]) -> None:
        quiet = logging.getLogger("pylsp_jsonrpc")
        quiet.addHandler(logging.NullHandler())
        quiet.propagate = False
        self._source = source
        self._writer = JsonRpcStreamWriter(target)
        self._endpoint = Endpoint(handlers, self._writer.write)
        self._messages: "queue.SimpleQueue[object]" = queue.SimpleQueue()
        self._wake_reader, self._wake_writer = os.pipe2(os.O_NONBLOCK | os.O_CLOEXEC)
        # When the last message was taken.
        self.received_at = -inf
        self.is_at_end = False
        threading.Thread(target=self._queue_messages_until_end, daemon=True).start()

    def fileno(self) -> int:
        """The descriptor that can be read once there are messages, or no more come."""
        return self._wake_reader

    @property
    def has_messages(self) -> bool:
        """Whether there are messages that weren't taken."""
        return not self._messages.empty()

    def dispatch_messages_noting_end(self) -> None:
        """Takes all messages that have come, in their order."""
        with suppress(BlockingIOError):
            while os.read(self._wake_reader, 4_096):
                pass
        while not self._messages.empty():
            message = self._messages.get()
            if message is _END:
                self.is_at_end = True
            elif isinstance(message, RequestError):
                self._answer_unreadable(message)
            elif _is_valid_message(message):
                self.received_at = time.monotonic()
                self._endpoint.consume(message)
            else:
                self._answer_unreadable(
                    RequestError("neither a request, nor a notification, nor an answer", INVALID_REQUEST)
                )

    def notify(self, method: str, params: object) -> None:
        """Notifies the client of something."""
        self._endpoint.notify(method, params)

    def request_ignoring_answer(self, method: str, params: object) -> None:
        """Requests something of the client, whatever it answers."""
        self._endpoint.request(method, params)

    def _answer_unreadable(self, why: RequestError) -> None:
        """Answers what can't be read as a message, and so has no number."""
        self._writer.write({"jsonrpc": VERSION, "id": None, "error": why.to_dict()})

    def _queue_messages_until_end(self) -> None:
        try:
            for body in _read_message_bodies(self._source):
                self._queue_message_and_wake_reader(_parse_message_or_make_error(body))
        finally:
            self._queue_message_and_wake_reader(_END)

    def _queue_message_and_wake_reader(self, message: object) -> None:
        self._messages.put(message)
        with suppress(OSError):
            os.write(self._wake_writer, b"x")


def _is_valid_message(message: object) -> bool:
    """Whether this is a message: a request or notification by its name, or an answer to a request."""
    if not isinstance(message, dict) or message.get("jsonrpc") != VERSION:
        return False
    if not isinstance(message.get("id", ""), str | int | float):
        return False
    method = message.get("method")
    return isinstance(method, str) if "method" in message else "id" in message
