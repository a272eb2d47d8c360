"""A sign's front end with its page, as it is run, for tests that ask both: over the program, or the model where none is
built."""

import contextlib
import http.client
import json
import os
import re
import socket
import subprocess
import sys
import urllib.parse
from collections.abc import Iterator
from dataclasses import dataclass, field
from typing import Any

from wisangub.process.places import SIGNTOOL, TOP, environment
from wisangub.snmp import wire
from wisangub.snmp.names import Memory, RowStatus, cell, scalar

from ..waiting import MODEL, PATIENCE, until

PROGRAM = os.environ.get("SIGNTOOL") or (str(SIGNTOOL) if SIGNTOOL.is_file() else MODEL)
SIGN = "signs/roadside.sign"  # from the top of the repository
READER, WRITER = b"public", b"administrator"
TOKEN = re.compile(r'name="token" content="([\w-]+)"')
Said = dict[str, Any]


@dataclass
class Bench:
    """The front end's process, its two ports, and a manager's socket."""

    process: subprocess.Popen[bytes]
    port: int
    page: int
    manager: socket.socket
    numbers: Iterator[int] = field(default_factory=lambda: iter(range(1, 1_000_000)))

    # --- a manager ----------------------------------------------------------------------------------------------------

    def send(self, kind: int, community: bytes, bindings: list[wire.Binding]) -> None:
        message = wire.Message(kind, community, next(self.numbers), bindings=bindings)
        self.manager.sendto(wire.written(message), ("127.0.0.1", self.port))

    def reply(self, seconds: float = PATIENCE) -> wire.Message | None:
        """The next reply, if one comes within this time."""
        self.manager.settimeout(seconds)
        try:
            return wire.spelled(self.manager.recv(2000))
        except TimeoutError:
            return None

    def get(self, name: wire.Name) -> Any:
        """What the sign has under a name, asked by the reader."""
        self.send(wire.GET, READER, [(name, (wire.NULL, b""))])
        found = self.reply()
        assert found is not None and found.status == 0
        return found.bindings[0][1][1]

    def get_lost(self, name: wire.Name) -> None:
        """A Get that nothing answers."""
        self.send(wire.GET, READER, [(name, (wire.NULL, b""))])
        assert self.reply(1.0) is None

    def set(self, *bindings: wire.Binding) -> None:
        self.send(wire.SET, WRITER, list(bindings))
        found = self.reply()
        assert found is not None and found.status == 0, found

    def publish(self, text: bytes, number: int = 1) -> None:
        """A message into a changeable row, and onto the sign for good; its second passes by a button."""

        def row(word: str) -> wire.Name:
            return cell(word, Memory.CHANGEABLE, number)

        status = row("dmsMessageStatus")
        self.set((status, (wire.INTEGER, RowStatus.MODIFY_REQ)))
        self.set((row("dmsMessageMultiString"), (wire.OCTETS, text)))
        self.set((status, (wire.INTEGER, RowStatus.VALIDATE_REQ)))
        assert self.press("seconds", 1) == 200 and self.get(status) == RowStatus.VALID
        checksum = self.get(row("dmsMessageCRC"))
        code = b"\xff\xff\xff\x03" + number.to_bytes(2, "big") + checksum.to_bytes(2, "big") + bytes((127, 0, 0, 1))
        self.set((scalar("dmsActivateMessage"), (wire.OCTETS, code)))

    def send_owner(self, owner: bytes) -> None:
        """A row that is being modified has this owner."""
        place = (Memory.CHANGEABLE, 2)
        self.set((cell("dmsMessageStatus", *place), (wire.INTEGER, RowStatus.MODIFY_REQ)))
        self.set((cell("dmsMessageOwner", *place), (wire.OCTETS, owner)))

    # --- a browser ----------------------------------------------------------------------------------------------------

    def asked(self, method: str, path: str, headers: dict[str, str], body: str = "") -> tuple[int, str, dict[str, str]]:
        """An answer's status, text and headers. A header may be left out by its name alone."""
        made = http.client.HTTPConnection("127.0.0.1", self.page, timeout=PATIENCE)
        made.putrequest(method, path, skip_host="Host" in headers)
        for name, value in headers.items():
            made.putheader(name, value)
        if body:
            made.putheader("Content-Length", str(len(body)))
        made.endheaders(body.encode() if body else None)
        answer = made.getresponse()
        found = answer.status, answer.read().decode(), {name.lower(): value for name, value in answer.getheaders()}
        made.close()
        return found

    def token(self) -> str:
        found = TOKEN.search(self.asked("GET", "/", {})[1])
        assert found is not None
        return found[1]

    def press(self, name: str, amount: int | str | None = None) -> int:
        """Presses a button as the page does: the status."""
        body = "" if amount is None else urllib.parse.urlencode({"amount": amount})
        return self.asked("POST", f"/{name}", {"X-Token": self.token()}, body)[0]

    def state(self) -> Said:
        held: Said = json.loads(self.asked("GET", "/state", {})[1])
        return held

    def facts(self) -> dict[str, str]:
        """What the page says of what is shown."""
        return {name: value for name, value in self.state()["shown"]["facts"]}

    def shows(self, part: str, words: str) -> None:
        """Waits until a part of the page says this."""
        until(lambda: words in json.dumps(self.state()[part]), f"{part} says {words!r}")

    def listener(self, room: int | None = None) -> socket.socket:
        """A browser that has asked for events, and has read none of them."""
        made = socket.socket()
        if room is not None:
            made.setsockopt(socket.SOL_SOCKET, socket.SO_RCVBUF, room)
        made.settimeout(PATIENCE)
        made.connect(("127.0.0.1", self.page))
        made.sendall(f"GET /events HTTP/1.1\r\nHost: 127.0.0.1:{self.page}\r\n\r\n".encode())
        return made


@contextlib.contextmanager
def bench(*words: str, program: str = PROGRAM, ticks: bool = False, sign: str = SIGN) -> Iterator[Bench]:
    """A front end; no second passes but by a button, where nothing else is said."""
    call = [sys.executable, "-m", "wisangub.endpoint.sign", "--sign", sign, "--port", "0", "--page", "0"]
    call += ["--signtool", program, *([] if ticks else ["--no-ticks"]), *words]
    process = subprocess.Popen(call, cwd=TOP, env=environment(), stdout=subprocess.PIPE, stdin=subprocess.DEVNULL)
    assert process.stdout is not None
    try:
        ports = [int(re.findall(rb":([0-9]+)/?$", process.stdout.readline().strip())[0]) for _ in range(2)]
        with socket.socket(socket.AF_INET, socket.SOCK_DGRAM) as manager:
            yield Bench(process, ports[0], ports[1], manager)
        process.terminate()
        assert process.wait(PATIENCE) == 0, "the front end ends in order"
    finally:
        process.kill()
        process.wait()
        process.stdout.close()
