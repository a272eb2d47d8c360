"""A worker asks a sign on loopback of itself: one with objects beside the sign's own, and one without."""

import pathlib
import time

from trials.room.loopback import Fates, Loopback
from wisangub.process.places import TOP
from wisangub.room.device import ASKED, ERRORS
from wisangub.room.store import devices
from wisangub.room.worker.program import Worker
from wisangub.snmp import wire

from .bench import HELLO, PROGRAM, TEXT, TICK, Bench

OBJECTS = [line for line in (TOP / "signs/roadside.objects").read_bytes().splitlines() if line.startswith(b"object ")]
ITSELF = set(ASKED.values())
_SECONDS = 60.0


def standing(folder: pathlib.Path, where: str, objects: list[bytes]) -> tuple[Loopback, Bench]:
    """A sign that has these objects."""
    loopback = Loopback(PROGRAM, {"one": TEXT}, Fates(1, 0.0), TICK)
    for line in objects:
        loopback.signs[0].process.write(line + b"\n")
        assert loopback.signs[0].process.lines(1) == [b"ok"]
    loopback.start()
    return loopback, Bench(folder, where, loopback, TEXT)


def asked(at: Bench) -> tuple[list[tuple[wire.Message, int]], list[tuple[wire.Message, int]]]:
    """The requests that named what a sign says of itself, and the others, each with the port that it came from."""
    every = [(wire.read(octets), peer[1]) for octets, peer in zip(list(at.live.requests), list(at.live.peers))]
    own = [one for one in every if ITSELF & {name for name, _ in one[0].bindings}]
    return own, [one for one in every if one not in own]


def went(at: Bench, worker: Worker) -> None:
    """Rounds until the sign's reading has ended."""
    ends = time.monotonic() + _SECONDS
    heard = "SELECT 1 FROM device_hearings WHERE heard IS NOT NULL"
    while not at.store.database.run(heard) and time.monotonic() < ends:
        worker.round()


def test_a_sign_says_what_it_is(tmp_path: pathlib.Path, where: str) -> None:
    missing = b"1.3.6.1.2.1.1.1.0 "  # sysDescr
    loopback, at = standing(tmp_path, where, [line for line in OBJECTS if missing not in line])
    try:
        worker = at.worker()
        went(at, worker)
        found = devices.view(at.store.database, at.sign_id)
        assert found is not None and set(found.values) == {*ASKED} - {"sysDescr"}
        assert found.octets("sysName") == b"roadside" and found.octets("moduleMake") == b"Example Signs"
        assert (found.number("dmsSignWidth"), found.number("dmsSignHeight")) == (1920, 540)
        assert found.number(ERRORS) == 0 and found.number("tempMaxSignHousing") == 20
        assert at.store.devices.lacking(at.sign_id) == {"sysDescr"}
        assert at.ended(worker, at.ask(HELLO)) == "accepted", "and its centre goes on"
        own, others = asked(at)
        assert {(one.kind, one.community) for one, _ in own} == {(wire.GET, b"public")}
        assert all(one.number < 0 for one, _ in own)
        assert not {one.number for one, _ in own} & {one.number for one, _ in others}, "a number asks for one thing"
        ports = {port for one, port in others if one.number >= 0}
        assert len(ports) == 1 and not ports & {port for _, port in own}, "its socket is not the centre's"
    finally:
        loopback.end()


def test_a_sign_without_objects_is_as_before(tmp_path: pathlib.Path, where: str) -> None:
    loopback, at = standing(tmp_path, where, [])
    try:
        worker = at.worker()
        went(at, worker)
        assert devices.view(at.store.database, at.sign_id) is None
        assert at.store.devices.lacking(at.sign_id) == set(ASKED)
        before = len(asked(at)[0])
        at.store.database.run("UPDATE device_hearings SET asked_at = asked_at - 3600")
        assert at.ended(worker, at.ask(HELLO)) == "accepted" and len(asked(at)[0]) == before, "it is asked once a day"
    finally:
        loopback.end()
