"""The built-in server: HTTP/1.1 with a thread a connection, one request each, and bounds on all."""

from __future__ import annotations

import io
import re
import socket
import socketserver
import sys
import threading
import time
from collections.abc import Callable, Iterable
from typing import Any
from urllib.parse import unquote_to_bytes

from .application import LONGEST_BODY

_LONGEST_HEAD = 16_384
_MOST_HEADERS = 100
_CONNECTIONS = 400  # 35 seats with some pages each; more are closed at once
_LEFT = 65_536  # bytes of a refused request that are still read, so that its answer arrives

_REQUEST = re.compile(rb"([A-Z]{1,20}) (/[\x21-\x7e]*) HTTP/1\.[01]")
_HEADER = re.compile(rb"([!#$%&'*+.^_`|~0-9A-Za-z-]+):[ \t]*([\t\x20-\x7e\x80-\xff]*)")

WSGI = Callable[[dict[str, Any], Callable[..., Any]], Iterable[bytes]]


class _Refused(Exception):
    """A request that is answered without the application."""

    def __init__(self, status: str) -> None:
        super().__init__(status)
        self.status = status


class Server(socketserver.ThreadingMixIn, socketserver.TCPServer):
    """Serves a WSGI application on an address.

    A client has `patience` seconds to send a request, and as many to take the answer.
    """

    daemon_threads = True
    block_on_close = False
    allow_reuse_address = True
    request_queue_size = 128

    def __init__(self, address: tuple[str, int], application: WSGI, patience: float = 15.0) -> None:
        """Binds the address, port 0 being any free one. Raises OSError."""
        self.application, self.patience = application, patience
        self._free = threading.BoundedSemaphore(_CONNECTIONS)
        self.address_family = socket.AF_INET6 if ":" in address[0] else socket.AF_INET
        super().__init__(address, _Connection)

    def process_request(self, request: Any, client_address: Any) -> None:
        if not self._free.acquire(blocking=False):
            self.shutdown_request(request)
            return
        super().process_request(request, client_address)

    def process_request_thread(self, request: Any, client_address: Any) -> None:
        try:
            super().process_request_thread(request, client_address)
        finally:
            self._free.release()

    def handle_error(self, request: Any, client_address: Any) -> None:
        """A client that is gone is no error; another one is said by its kind alone."""
        error = sys.exc_info()[1]
        if not isinstance(error, OSError):
            print(f"the hall's server: {type(error).__name__}", file=sys.stderr)


class _Connection(socketserver.BaseRequestHandler):
    """One request and its answer."""

    server: Server
    request: socket.socket

    def setup(self) -> None:
        self._end = time.monotonic() + self.server.patience
        self._read = bytearray()

    def handle(self) -> None:
        try:
            environ = self._environ()
        except _Refused as refused:
            self._send(refused.status, [("Content-Length", "0")], b"")
            self._drain()
            return
        except TimeoutError:
            return
        if environ is not None:
            self._send(*self._answer(environ))
            self._drain()

    # ---- reading

    def _environ(self) -> dict[str, Any] | None:
        """The request as WSGI has it; None where the client is gone."""
        head = self._head()
        if head is None:
            return None
        first, *lines = head.split(b"\r\n")
        asked = _REQUEST.fullmatch(first)
        if not asked:
            raise _Refused("400 Bad Request")
        headers = _headers(lines)
        body = self._body(headers)
        if body is None:
            return None
        path, _, query = asked[2].partition(b"?")
        environ: dict[str, Any] = {
            "REQUEST_METHOD": asked[1].decode(),
            "SCRIPT_NAME": "",
            "PATH_INFO": unquote_to_bytes(path).decode("latin-1"),
            "QUERY_STRING": query.decode("latin-1"),
            "CONTENT_TYPE": headers.get("content-type", ""),
            "CONTENT_LENGTH": str(len(body)),
            "SERVER_NAME": str(self.server.server_address[0]),
            "SERVER_PORT": str(self.server.server_address[1]),
            "SERVER_PROTOCOL": "HTTP/1.1",
            "wsgi.version": (1, 0),
            "wsgi.url_scheme": "http",
            "wsgi.input": io.BytesIO(body),
            "wsgi.errors": sys.stderr,
            "wsgi.multithread": True,
            "wsgi.multiprocess": False,
            "wsgi.run_once": False,
        }
        for name, value in headers.items():
            if name not in ("content-type", "content-length"):
                environ[f"HTTP_{name.upper().replace('-', '_')}"] = value
        return environ

    def _head(self) -> bytes | None:
        """The lines down to the empty one, without it."""
        while True:
            end = self._read.find(b"\r\n\r\n")
            if end >= 0:
                head = bytes(self._read[:end])
                del self._read[: end + 4]
                return head
            if len(self._read) > _LONGEST_HEAD:
                raise _Refused("431 Request Header Fields Too Large")
            if not self._more():
                if self._read:
                    raise _Refused("400 Bad Request")
                return None

    def _body(self, headers: dict[str, str]) -> bytes | None:
        if "transfer-encoding" in headers:
            raise _Refused("501 Not Implemented")
        stated = headers.get("content-length", "0")
        if not (stated.isascii() and stated.isdigit()):
            raise _Refused("400 Bad Request")
        length = int(stated[:9])
        if length > LONGEST_BODY or len(stated) > 9:
            raise _Refused("413 Content Too Large")
        if headers.get("expect", "").lower() == "100-continue" and len(self._read) < length:
            self.request.sendall(b"HTTP/1.1 100 Continue\r\n\r\n")
        while len(self._read) < length:
            if not self._more():
                raise _Refused("400 Bad Request")
        return bytes(self._read[:length])

    def _more(self) -> bool:
        """Reads on; False at the end. Raises TimeoutError once the client's time is over."""
        left = self._end - time.monotonic()
        if left <= 0:
            raise TimeoutError
        self.request.settimeout(left)
        chunk = self.request.recv(8_192)
        self._read += chunk
        return bool(chunk)

    # ---- answering

    def _answer(self, environ: dict[str, Any]) -> tuple[str, list[tuple[str, str]], bytes]:
        started: list[tuple[str, list[tuple[str, str]]]] = []
        written: list[bytes] = []

        def start_response(
            status: str, headers: list[tuple[str, str]], exc_info: object = None
        ) -> Callable[[bytes], None]:
            started[:] = [(status, headers)]
            return written.append

        made = self.server.application(environ, start_response)
        try:
            written.extend(made)
        finally:
            close = getattr(made, "close", None)
            if close:
                close()
        status, headers = started[0]
        return status, headers, b"".join(written)

    def _send(self, status: str, headers: list[tuple[str, str]], content: bytes) -> None:
        lines = [f"HTTP/1.1 {status}", *(f"{name}: {value}" for name, value in headers)]
        head = "\r\n".join([*lines, "Connection: close", "", ""])
        self.request.settimeout(self.server.patience)
        self.request.sendall(head.encode("latin-1") + content)

    def _drain(self) -> None:
        """Reads what the client still sends, or its answer could be lost where it is closed on."""
        self.request.shutdown(socket.SHUT_WR)
        left = _LEFT
        self._end = time.monotonic() + min(self.server.patience, 2.0)
        self._read.clear()
        try:
            while left > 0 and self._more():
                left -= len(self._read)
                self._read.clear()
        except TimeoutError:
            return


def _headers(lines: list[bytes]) -> dict[str, str]:
    """The headers by their names in small letters. One that is given twice is joined by commas."""
    if len(lines) > _MOST_HEADERS:
        raise _Refused("431 Request Header Fields Too Large")
    headers: dict[str, str] = {}
    for line in lines:
        found = _HEADER.fullmatch(line)
        if not found:
            raise _Refused("400 Bad Request")
        name, value = found[1].decode().lower(), found[2].decode("latin-1").rstrip(" \t")
        headers[name] = f"{headers[name]},{value}" if name in headers else value
    return headers
