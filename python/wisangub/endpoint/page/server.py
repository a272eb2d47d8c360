"""The page over HTTP, on loopback: a thread a request, of which a few are there at once. None of them touches the sign:
they read what the front end's thread left for them, and hand it presses."""

import http.server
import pathlib
import socket
import socketserver
import sys
import threading
import time
import urllib.parse
from http import HTTPStatus
from typing import Any

from wisangub.refusal import Refusal

from .board import Board
from .guard import HEADERS, Guard
from .lamps import Lamps
from .parts import Parts
from .presses import MOST, NAMES

HOST = "127.0.0.1"  # and no other
STATIC = pathlib.Path(__file__).with_name("static")
SVG, PLAIN, JSON = "image/svg+xml", "text/plain; charset=utf-8", "application/json"
FILES = {"/page.css": "text/css; charset=utf-8", "/page.js": "text/javascript; charset=utf-8", "/page.svg": SVG}
MOST_AT_ONCE = 40  # requests; a page that listens is one
MOST_WAITING = 64  # connections that are not taken yet
MOST_BODY = 100  # octets of what is posted
ROOM = 1 << 16  # octets that wait for a browser that listens
LOOK = 0.25  # seconds from one look at what has changed to the next
SILENCE = 10.0  # seconds after which a browser that listens is told that the page is there
PATIENCE = 30.0  # seconds that a browser may take to ask, or to take what it is sent


def listening(port: int) -> socket.socket:
    """A socket at this port of loopback, where browsers wait until a server takes it; raises Refusal."""
    made = socket.socket()
    try:
        made.setsockopt(socket.SOL_SOCKET, socket.SO_REUSEADDR, 1)
        made.bind((HOST, port))
        made.listen(MOST_WAITING)
    except (OSError, OverflowError) as fault:
        made.close()
        raise Refusal(f"{HOST}:{port}: {getattr(fault, 'strerror', None) or fault}") from fault
    return made


class Server(socketserver.ThreadingTCPServer):
    """Takes what comes to a socket that listens, as a context."""

    daemon_threads = True

    def __init__(self, at: socket.socket, board: Board, lamps: Lamps, title: str) -> None:
        self.board, self.parts, self.title, self.is_over = board, Parts(board, lamps), title, False
        self.places = threading.BoundedSemaphore(MOST_AT_ONCE)
        super().__init__(at.getsockname(), Handler, bind_and_activate=False)
        self.socket.close()
        self.socket = at
        self.port: int = at.getsockname()[1]
        self.guard = Guard(self.port)
        threading.Thread(target=self.serve_forever, daemon=True).start()

    def process_request(self, request: Any, client_address: Any) -> None:
        """Begins a thread, where there is a place for one more."""
        if self.places.acquire(blocking=False):
            super().process_request(request, client_address)
        else:
            self.shutdown_request(request)

    def process_request_thread(self, request: Any, client_address: Any) -> None:
        try:
            super().process_request_thread(request, client_address)
        finally:
            self.places.release()

    def handle_error(self, request: Any, client_address: Any) -> None:
        """A browser that went away, or took too long, is none."""
        if not isinstance(sys.exc_info()[1], OSError):
            super().handle_error(request, client_address)

    def server_close(self) -> None:
        self.is_over = True
        super().server_close()

    def __exit__(self, *words: Any) -> None:
        self.shutdown()
        super().__exit__(*words)


class Handler(http.server.BaseHTTPRequestHandler):
    """A request, after which its connection ends."""

    server: Server
    timeout = PATIENCE
    server_version, sys_version = "wisangub-sign", ""

    def log_message(self, *_: Any) -> None:
        """What a browser asks for is told nowhere."""

    def end_headers(self) -> None:
        for name, value in HEADERS.items():
            self.send_header(name, value)
        super().end_headers()

    def answer(self, octets: bytes, kind: str = PLAIN, status: int = HTTPStatus.OK) -> None:
        """Sends a whole answer."""
        self.send_response(status)
        self.send_header("Content-Type", kind)
        self.send_header("Content-Length", str(len(octets)))
        self.end_headers()
        self.wfile.write(octets)

    def refuse(self, status: HTTPStatus, words: str) -> None:
        self.answer(f"{words}\n".encode(), status=status)

    def do_GET(self) -> None:
        """Something to look at; nothing is changed by it."""
        path, server = self.path.partition("?")[0], self.server
        if not server.guard.is_of_here(self.headers):
            self.refuse(HTTPStatus.FORBIDDEN, "this is no name of this page")
        elif path == "/":
            self.answer(self.page(), "text/html; charset=utf-8")
        elif path in FILES:
            self.answer(STATIC.joinpath(path[1:]).read_bytes(), FILES[path])
        elif path == "/lamps.svg":
            self.answer(server.parts.drawn(server.board.view), SVG)
        elif path == "/state":
            self.answer(listed(server.parts.said()).encode("ascii"), JSON)
        elif path == "/events":
            self.events()
        else:
            self.refuse(HTTPStatus.NOT_FOUND, "there is no such page")

    def page(self) -> bytes:
        """The document, with the token of this run."""
        text = STATIC.joinpath("page.html").read_text(encoding="utf-8")
        title = self.server.title.replace("&", "&amp;").replace("<", "&lt;")
        words = {"@TOKEN@": self.server.guard.token, "@RUN@": self.server.parts.run, "@TITLE@": title}
        for mark, word in words.items():
            text = text.replace(mark, word)
        return text.encode("utf-8", "backslashreplace")  # a file's name may be no UTF-8

    def events(self) -> None:
        """What changes, as it changes. A browser that takes nothing holds its own thread, and is let go in the end;
        what it missed is not kept for it."""
        self.connection.setsockopt(socket.SOL_SOCKET, socket.SO_SNDBUF, ROOM)
        self.send_response(HTTPStatus.OK)
        self.send_header("Content-Type", "text/event-stream")
        self.end_headers()
        last: dict[str, str] = {}
        told = 0.0
        while not self.server.is_over:
            said = self.server.parts.said()
            changed = {name: part for name, part in said.items() if last.get(name) is not part}
            if changed or time.monotonic() - told > SILENCE:
                self.wfile.write(f"data: {listed(changed)}\n\n".encode("ascii"))
                last, told = said, time.monotonic()
            time.sleep(LOOK)

    def do_POST(self) -> None:
        """A button that is pressed."""
        name, server, body = self.path[1:], self.server, self.body()
        if not server.guard.is_of_here(self.headers):
            self.refuse(HTTPStatus.FORBIDDEN, "this is no name of this page")
        elif not server.guard.may_press(self.headers):
            self.refuse(HTTPStatus.FORBIDDEN, "only the page itself presses its buttons")
        elif name not in NAMES:
            self.refuse(HTTPStatus.NOT_FOUND, "there is no such button")
        elif (amount := amount_of(body, MOST.get(name, 0))) is None:
            self.refuse(HTTPStatus.BAD_REQUEST, "this is no number of seconds")
        elif why := server.board.presses.press(name, amount if amount >= 0 else None):
            self.refuse(HTTPStatus.CONFLICT, why)
        else:
            self.answer(b"", status=HTTPStatus.OK)

    def body(self) -> bytes | None:
        """What is posted; None where that is more than a button needs."""
        size = self.headers.get("Content-Length", "0")
        is_small = size.isascii() and size.isdigit() and len(size) <= len(str(MOST_BODY)) and int(size) <= MOST_BODY
        return self.rfile.read(int(size)) if is_small else None


def amount_of(body: bytes | None, most: int) -> int | None:
    """The number that was posted, up to this one; -1 where there is none, and None where it is no such number."""
    if body is None:
        return None
    found = urllib.parse.parse_qs(body.decode("latin-1")).get("amount", [""])[0]
    if not found:
        return -1
    return int(found) if found.isascii() and found.isdigit() and int(found) <= most else None


def listed(parts: dict[str, str]) -> str:
    """Parts that are JSON each, as one object."""
    return "{" + ",".join(f'"{name}":{part}' for name, part in parts.items()) + "}"
