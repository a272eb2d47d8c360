#!/usr/bin/env python3
"""Sizes and times of the library for C, and both front ends of a sign beside Net-SNMP's snmpd.

    measures/c_speed.py [--library crates/wisangub_c/out/libwisangub_c.a] [--signtool crates/signtool/out/signtool]
        [--seconds 2] [--turns 5] [--calls]

It wants a C compiler with make and size, and for the second table Debian's package snmpd (without it that table is left
out). Times of calls are the least of forty passes. Requests a second are those of measures/c_requests.c on loopback;
examples/signd, bin/wisangub-sign and snmpd take turns, and the middle turn of each is told. snmpd has the sign's own
objects, name for name, with its directive `override`, beside all of its own; so that the first three kinds are the same
datagrams to all, and the next three are of the objects that are its own. A walk is 200 GetNexts, each of the name that
the one before it read. A SET writes a number (a row's run-time priority; nsCacheDefaultTimeout); one that is kept a
text of 12 octets, which a sign has on the disk before it answers, and snmpd (sysContact) in its persistent file.
"""

from __future__ import annotations

import argparse
import contextlib
import os
import pathlib
import shutil
import socket
import statistics
import subprocess
import sys
import tempfile
import time
from typing import Iterator

TOP = pathlib.Path(__file__).resolve().parent.parent
sys.path.insert(0, str(TOP))

from model import wire  # noqa: E402
from model.text import BENCH  # noqa: E402

SIGN = (1, 3, 6, 1, 4, 1, 1206, 4, 2, 3)
SYSTEM = (1, 3, 6, 1, 2, 1)
TIMEOUT = (1, 3, 6, 1, 4, 1, 8072, 1, 5, 1, 0)
ROW = (3, 1)  # a changeable row
STEPS = 200
MOST_WAIT = 10.0


def column(number: int, row: tuple[int, int] = ROW) -> tuple[int, ...]:
    return (*SIGN, 5, 8, 1, number, *row)


def request(
    kind: int, name: tuple[int, ...], value: tuple[int, object] = (wire.NULL, b""), community: bytes = b""
) -> bytes:
    """A request of one binding."""
    community = community or (b"administrator" if kind == wire.SET else b"public")
    return wire.written(wire.Message(kind, community, 1, 0, 0, [(name, value)]))


class Agent:
    """An agent at a port of 127.0.0.1."""

    def __init__(self, port: int) -> None:
        self.port = port
        self.socket = socket.socket(socket.AF_INET, socket.SOCK_DGRAM)
        self.socket.settimeout(0.5)
        self.socket.connect(("127.0.0.1", port))

    def ask(self, octets: bytes) -> wire.Message | None:
        try:
            self.socket.send(octets)
            return wire.read(self.socket.recv(65536))
        except (OSError, wire.Fault):
            return None

    def is_there(self, octets: bytes) -> bool:
        last = time.monotonic() + MOST_WAIT
        while time.monotonic() < last:
            if self.ask(octets) is not None:
                return True
            time.sleep(0.05)
        return False

    def walk(self, name: tuple[int, ...]) -> list[bytes]:
        """The requests of a walk."""
        made: list[bytes] = []
        while len(made) < STEPS:
            made.append(request(wire.GET_NEXT, name))
            reply = self.ask(made[-1])
            if reply is None or reply.status != 0:
                raise SystemExit(f"a walk ends after {len(made)} objects")
            name = reply.bindings[0][0]
        return made


def free_port() -> int:
    with socket.socket(socket.AF_INET, socket.SOCK_DGRAM) as found:
        found.bind(("127.0.0.1", 0))
        return int(found.getsockname()[1])


@contextlib.contextmanager
def running(command: list[str], environment: dict[str, str]) -> Iterator[None]:
    process = subprocess.Popen(
        command, stdout=subprocess.DEVNULL, stderr=subprocess.DEVNULL, env={**os.environ, **environment}
    )
    try:
        yield
    finally:
        process.terminate()
        process.wait()


def compiled(folder: pathlib.Path, library: pathlib.Path) -> None:
    """The examples and the programs of the measures."""
    cc = ["cc", "-std=c11", "-O2", f"-I{TOP / 'include'}"]
    measures = TOP / "measures"
    sources = [measures / "c_speed.c", TOP / "include/wisangub.c"]
    subprocess.run([*cc, "-o", folder / "speed", *sources, library, "-lpthread"], check=True)
    subprocess.run([*cc, "-o", folder / "requests", measures / "c_requests.c"], check=True)
    make = ["make", "-s", f"LIBRARY={library}", f"OUT={folder}", str(folder / "signd")]
    subprocess.run(make, cwd=TOP / "examples", check=True)


def calls(folder: pathlib.Path, library: pathlib.Path) -> None:
    """The first table: sizes, and times of calls."""
    text = subprocess.run(["size", "-t", library], capture_output=True, text=True, check=True).stdout.split("\n")[-2]
    print(f"code: {text.split()[0]} octets\n")
    blank = bytes([0xFF, 0xFF, 255, 7, 0, 1, 0, 0, 192, 0, 2, 1])
    asked = {
        "Get": request(wire.GET, (*SIGN, 6, 5, 0)),
        "GetNext": request(wire.GET_NEXT, column(9)),
        "modify": request(wire.SET, column(9), (wire.INTEGER, 6)),
        "SET": request(wire.SET, column(4), (wire.OCTETS, b"control room")),
        "activation": request(wire.SET, (*SIGN, 6, 3, 0), (wire.OCTETS, blank)),
    }
    lines = "".join(f"{name} {octets.hex()}\n" for name, octets in asked.items())
    found = {}
    small = folder / "bench.sign"
    small.write_bytes(BENCH.replace(b" admin\n", b" administrator\n"))
    for path in (small, TOP / "signs/roadside.sign", TOP / "signs/gantry.sign"):
        ran = subprocess.run([folder / "speed", path], input=lines, capture_output=True, text=True, check=True)
        found[path.stem] = dict(line.split() for line in ran.stdout.splitlines())
    print("| | " + " | ".join(found) + " |\n|---|---|---|---|")
    for name in found["gantry"]:
        print(f"| {name} | " + " | ".join(found[sign][name] for sign in found) + " |")


def rate(folder: pathlib.Path, agent: Agent, window: int, seconds: float, asked: list[bytes]) -> float:
    text = "".join(f"{octets.hex()}\n" for octets in asked)
    words = [str(folder / "requests"), str(agent.port), str(window), str(seconds)]
    return float(subprocess.run(words, input=text, capture_output=True, text=True, check=True).stdout)


def objects_of(agent: Agent, above: tuple[int, ...]) -> list[tuple[tuple[int, ...], tuple[int, object]]]:
    """All objects below a name, with their values."""
    found: list[tuple[tuple[int, ...], tuple[int, object]]] = []
    name = above
    while True:
        reply = agent.ask(request(wire.GET_NEXT, name))
        if reply is None or reply.status != 0 or reply.bindings[0][0][: len(above)] != above:
            return found
        found.append(reply.bindings[0])
        name = reply.bindings[0][0]


def overridden(name: tuple[int, ...], value: tuple[int, object]) -> str:
    """The line by which snmpd has an object."""
    tag, held = value
    octets = held if isinstance(held, bytes) else bytes(held) if isinstance(held, tuple) else b""
    told = f"integer {held}" if tag == wire.INTEGER else f"octet_str 0x{octets.hex()}" if octets else 'octet_str ""'
    return f"override -rw .{'.'.join(map(str, name))} {told}\n"


def begun(ends: contextlib.ExitStack, command: list[str], words: list[str]) -> Agent:
    """A front end of a sign with these options, as long as the stack."""
    agent = Agent(free_port())
    ends.enter_context(running([*command[:-1], *words, "--port", str(agent.port), command[-1]], {}))
    if not agent.is_there(request(wire.SET, column(9), (wire.INTEGER, 6))):
        raise SystemExit(f"{command[0]} does not answer")
    return agent


def beside(folder: pathlib.Path, seconds: float, turns: int, signtool: pathlib.Path) -> None:
    """The second table: requests a second of signd, of wisangub-sign and of snmpd."""
    snmpd = shutil.which("snmpd") or "/usr/sbin/snmpd"
    if not os.path.exists(snmpd):
        print("\nhere is no snmpd")
        return
    sign = str(TOP / "signs" / "gantry.sign")
    front_ends = [
        [str(folder / "signd"), "--quiet", sign],
        [sys.executable, str(TOP / "bin/wisangub-sign"), "--quiet", "--signtool", str(signtool), f"--sign={sign}"],
    ]
    with contextlib.ExitStack() as ends:
        agents = []
        for number, command in enumerate(front_ends):
            kept = ["--journal", str(folder / f"journal{number}"), "--most-recorded", "1000000"]
            agents.append((begun(ends, command, []), begun(ends, command, kept)))
        has = objects_of(agents[0][0], SIGN)
        conf = "rocommunity public 127.0.0.1\nrwcommunity administrator 127.0.0.1\n"
        (folder / "conf").write_text(conf + "".join(overridden(*one) for one in has))
        theirs = [snmpd, "-f", "-C", "-c", str(folder / "conf"), "-Lf", "/dev/null", "-p", str(folder / "pid")]
        other = Agent(free_port())
        ends.enter_context(running([*theirs, f"udp:127.0.0.1:{other.port}"], {"SNMP_PERSISTENT_DIR": str(folder)}))
        compare(folder, seconds, turns, agents, other, len(has))


def compare(
    folder: pathlib.Path, seconds: float, turns: int, agents: list[tuple[Agent, Agent]], other: Agent, count: int
) -> None:
    """Of each front end there is an agent that keeps nothing, and one that does."""
    contact, owner = (*SYSTEM, 1, 4, 0), column(4)
    if not other.is_there(request(wire.GET, contact)):
        raise SystemExit("snmpd does not answer")
    told = len(objects_of(other, SIGN)), len(objects_of(other, (1, 3, 6)))
    print(f"\nobjects: {count} of a sign; snmpd has {told[0]} under the same names, and {told[1]} in all")
    number, text = (wire.INTEGER, 5), (wire.OCTETS, b"control room")
    get, walk, change = request(wire.GET, owner), agents[0][0].walk(SIGN), request(wire.SET, column(8), number)
    kinds = [
        ("Get, the same object", 0, [get], [get]),
        ("walk, the same objects", 0, walk, walk),
        ("SET, the same object", 0, [change], [change]),
        ("Get, an object of its own", 0, [get], [request(wire.GET, contact)]),
        ("walk, objects of its own", 0, walk, other.walk(SYSTEM)),
        ("SET, an object of its own", 0, [change], [request(wire.SET, TIMEOUT, number)]),
        ("SET that is kept", 1, [request(wire.SET, owner, text)], [request(wire.SET, contact, text)]),
    ]
    print("\n| replies a second | in flight | signd | wisangub-sign | snmpd | signd's ratio | wisangub-sign's |")
    print("|---|---|---|---|---|---|---|")
    for kind, which, mine, its in kinds:
        asked = [*((pair[which], mine) for pair in agents), (other, its)]
        for agent, octets in asked:
            reply = agent.ask(octets[0])
            if reply is None or reply.status != 0:
                raise SystemExit(f"{kind} is not answered well: {reply}")
        for window in (1, 8):
            rates = [[rate(folder, agent, window, seconds, octets) for agent, octets in asked] for _ in range(turns)]
            found = [statistics.median(turn[place] for turn in rates) for place in range(3)]
            ratios = " | ".join(f"{one / found[2]:.2f}" for one in found[:2])
            print(f"| {kind} | {window} | {' | '.join(f'{one:,.0f}' for one in found)} | {ratios} |", flush=True)


def main() -> None:
    parser = argparse.ArgumentParser(description=__doc__, formatter_class=argparse.RawDescriptionHelpFormatter)
    parser.add_argument(
        "--library", type=pathlib.Path, default=TOP / "crates/wisangub_c/out/libwisangub_c.a", help="the library for C"
    )
    program = TOP / "crates/signtool/out/signtool"
    parser.add_argument("--signtool", type=pathlib.Path, default=program, help="the program of wisangub-sign")
    parser.add_argument("--seconds", type=float, default=2.0, help="how long each is measured, in a turn")
    parser.add_argument("--turns", type=int, default=5, help="how often each is measured")
    parser.add_argument("--calls", action="store_true", help="the first table alone")
    asked = parser.parse_args()
    with tempfile.TemporaryDirectory(prefix="c-measures-") as place:
        folder = pathlib.Path(place)
        compiled(folder, asked.library.absolute())
        calls(folder, asked.library)
        if not asked.calls:
            beside(folder, asked.seconds, asked.turns, asked.signtool.absolute())
    print(f"\nload {os.getloadavg()[0]:.1f}")


if __name__ == "__main__":
    main()
