"""A pooler between a program and its server of PostgreSQL, which drops the options that a connection begins with."""

import contextlib
import re
import socket
import struct
import threading
from typing import Iterator


def startup(connection: socket.socket) -> bytes:
    """The message that a connection begins with, without its options."""
    size = struct.unpack("!I", received(connection, 4))[0]
    body = received(connection, size - 4)
    words = body[4:].rstrip(b"\0").split(b"\0")
    kept = [word for pair in zip(words[::2], words[1::2]) if pair[0] != b"options" for word in pair]
    made = body[:4] + b"".join(word + b"\0" for word in kept) + b"\0"
    return struct.pack("!I", len(made) + 4) + made


def received(connection: socket.socket, size: int) -> bytes:
    found = b""
    while len(found) < size:
        more = connection.recv(size - len(found))
        if not more:
            raise EOFError
        found += more
    return found


def pumped(source: socket.socket, target: socket.socket) -> None:
    """All octets, until one end is closed."""
    with contextlib.suppress(OSError):
        while octets := source.recv(65536):
            target.sendall(octets)
    with contextlib.suppress(OSError):
        target.shutdown(socket.SHUT_WR)


def served(listener: socket.socket, port: int) -> None:
    """Connections, until nobody listens any more."""
    with contextlib.suppress(OSError):
        while True:
            connection = listener.accept()[0]
            server = socket.create_connection(("127.0.0.1", port))
            with contextlib.suppress(EOFError, OSError):
                server.sendall(startup(connection))
                for pair in ((connection, server), (server, connection)):
                    threading.Thread(target=pumped, args=pair, daemon=True).start()


@contextlib.contextmanager
def pooler(url: str) -> Iterator[str]:
    """The URL of the database through the pooler."""
    found = re.fullmatch(r"(postgresql://\w+@127\.0\.0\.1:)(\d+)(/\w+)", url)
    assert found is not None
    with socket.create_server(("127.0.0.1", 0)) as listener:
        threading.Thread(target=served, args=(listener, int(found[2])), daemon=True).start()
        port = listener.getsockname()[1]
        yield f"{found[1]}{port}{found[3]}?sslmode=disable&gssencmode=disable"
        listener.shutdown(socket.SHUT_RDWR)
