"""A local web page that shows the run of a script, kernel step by kernel step.

The server keeps no state of a run: each request carries the script, so a request affects nothing but its own answer. Requests from pages of
other sites are refused.
"""
from __future__ import annotations

import json
import threading
from http import HTTPStatus
from http.server import BaseHTTPRequestHandler, ThreadingHTTPServer
from pathlib import Path
from typing import Any, Dict, Tuple

from .lab_answers import ANSWERS, MOST_BYTES, Bad
from .refusals import Refused

#: The largest number of bytes of a request: a character of a script may take six.
MOST_REQUEST = 2 << 20

# the number of bytes that are read of a request that is too long, before it is answered
_SKIPPED = 1 << 26

_HERE = Path(__file__).resolve().parent

_KINDS = {".html": "text/html", ".css": "text/css", ".mjs": "text/javascript"}

_HEADERS = {
    "Content-Security-Policy": "default-src 'none'; script-src 'self'; style-src 'self'; connect-src 'self'; frame-ancestors 'none'",
    "Cross-Origin-Resource-Policy": "same-origin",
    "X-Content-Type-Options": "nosniff",
    "Cache-Control": "no-store",
}


def files() -> Dict[str, Tuple[bytes, str]]:
    """Returns the files of the page by their paths, with their kinds: the views that the page in one file has too, and the lab's own
    source of answers."""
    found = {f"/views/{file.name}": file for file in sorted((_HERE / "views").iterdir()) if file.suffix in _KINDS}
    found["/lab.mjs"] = _HERE / "lab.mjs"
    told = {path: (file.read_bytes(), _KINDS[file.suffix]) for path, file in found.items()}
    page, kind = told.pop("/views/page.html")
    return {**told, "/": (page.replace(b"</body>", b'<script type="module" src="/lab.mjs"></script>\n</body>'), kind)}


class Handler(BaseHTTPRequestHandler):
    """Answers the requests of the page."""

    server: "Lab"
    protocol_version = "HTTP/1.1"
    timeout = 30

    def do_GET(self) -> None:
        if not self._is_own():
            return
        if self.path == "/start":
            self._send_json(HTTPStatus.OK, self.server.start)
        elif self.path in self.server.files:
            data, kind = self.server.files[self.path]
            self._send(HTTPStatus.OK, kind, data)
        else:
            self._send_json(HTTPStatus.NOT_FOUND, {"error": "there is no such page"})

    def do_POST(self) -> None:
        if not self._is_own():
            return
        answer = ANSWERS.get(self.path)
        if answer is None:
            self._send_json(HTTPStatus.NOT_FOUND, {"error": "there is no such question"})
            return
        try:
            asked = json.loads(self._body())
            if not isinstance(asked, dict):
                raise Bad("a request is an object")
            with self.server.turns:
                told = answer(asked)
        except (Bad, Refused, ValueError, RecursionError) as why_not:
            self.close_connection = True
            self._send_json(HTTPStatus.BAD_REQUEST, {"error": str(why_not)})
        except OSError:
            raise
        except Exception as fault:  # report a fault of the lab itself to the page, and continue
            self._send_json(HTTPStatus.INTERNAL_SERVER_ERROR, {"error": f"the lab failed: {fault!r}"})
        else:
            self._send_json(HTTPStatus.OK, told)

    def _is_own(self) -> bool:
        """Returns whether the request comes from the lab's own page, and refuses any other request. A page of another site has another
        origin, and a foreign name that resolves to this machine is another host."""
        host, origin = self.headers.get("Host", ""), self.headers.get("Origin")
        if host in self.server.hosts and origin in (None, f"http://{host}"):
            return True
        self.close_connection = True
        self._send_json(HTTPStatus.FORBIDDEN, {"error": "the lab answers its own page alone"})
        return False

    def _body(self) -> bytes:
        length = self.headers.get("Content-Length", "")
        if self.headers.get("Content-Type") != "application/json":
            raise Bad("a request is of the type application/json")
        if not (length.isascii() and length.isdigit() and len(length) < 10):
            raise Bad("a request says how many bytes it has")
        if int(length) > MOST_REQUEST:
            self._skip(min(int(length), _SKIPPED))
            raise Bad(f"a request has up to {MOST_REQUEST:,} bytes")
        return self.rfile.read(int(length))

    def _skip(self, count: int) -> None:
        """Reads this many bytes, because a client that is still sending does not read an answer."""
        while count > 0 and self.rfile.read(min(count, 1 << 16)):
            count -= 1 << 16

    def _send_json(self, status: HTTPStatus, told: Dict[str, Any]) -> None:
        self._send(status, "application/json", json.dumps(told).encode())

    def _send(self, status: HTTPStatus, kind: str, data: bytes) -> None:
        self.send_response(status)
        for name, value in (*_HEADERS.items(), ("Content-Type", f"{kind}; charset=utf-8"), ("Content-Length", str(len(data)))):
            self.send_header(name, value)
        if self.close_connection:
            self.send_header("Connection", "close")
        self.end_headers()
        self.wfile.write(data)

    def log_message(self, format: str, *args: Any) -> None:
        """Does not log requests."""


class Lab(ThreadingHTTPServer):
    """The server, bound to the loopback address."""

    daemon_threads = True

    def __init__(self, script: str, frames: int, page_bytes: int, port: int = 0) -> None:
        super().__init__(("127.0.0.1", port), Handler)
        self.hosts = {f"{name}:{self.server_port}" for name in ("127.0.0.1", "localhost")}
        self.start = {"script": script, "frames": frames, "pageBytes": page_bytes, "mostBytes": MOST_BYTES}
        self.files = files()
        #: The number of requests that are answered at the same time.
        self.turns = threading.BoundedSemaphore(2)

    @property
    def address(self) -> str:
        return f"http://127.0.0.1:{self.server_port}/"

    def handle_error(self, request: Any, client_address: Any) -> None:
        """Ignores a browser that closes the connection."""


def read_script(file: str) -> str:
    """Returns the script in a file: only its first lines if it is longer than the lab accepts."""
    with open(file, "rb") as stream:
        data = stream.read(MOST_BYTES + 1)
    if len(data) > MOST_BYTES:
        data = data[: data.rfind(b"\n", 0, MOST_BYTES) + 1]
    return data.decode("utf-8", "surrogateescape")
