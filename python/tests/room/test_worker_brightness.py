"""A worker sets the brightness of a sign on loopback: by one Set of the device's objects, and reads it afterwards."""

import pathlib
import time

from trials.room.loopback import Loopback
from wisangub.endpoint.sockets import received
from wisangub.room.device import ASKED, BY_HAND, CONTROL, CONTROLS, LEVEL, SET
from wisangub.room.store import brightness
from wisangub.room.store.brightness import EVERY, Asked, Wish
from wisangub.room.store.devices import DeviceSaid
from wisangub.room.worker.program import Worker
from wisangub.snmp import wire

from .bench import HELLO, Bench
from .people import person
from .test_worker_devices import OBJECTS, standing, went

OF_BRIGHTNESS = tuple(f"{'.'.join(map(str, ASKED[name]))} ".encode() for name in SET)
_SECONDS = 60.0


def dimmed(at: Bench, worker: Worker, wish: Wish) -> Asked:
    """What came of a wish, once the sign was read afterwards, or would have been."""
    at.store.database.run("UPDATE brightness SET asked_at = asked_at - ?", EVERY)
    asked = brightness.ask(at.store.database, at.sign_id, "ann", wish, f"a word for {wish}")
    ends = time.monotonic() + _SECONDS
    while True:
        worker.round()
        found = brightness.found(at.store.database, asked)
        assert found is not None
        is_over = found.how is not None and (found.said is not None or found.how.startswith("no answer"))
        if is_over or time.monotonic() > ends:
            return found


def sets(at: Bench) -> list[tuple[wire.Message, int]]:
    """The Sets of the device's that reached the sign, each with its port."""
    every = [(wire.read(octets), peer[1]) for octets, peer in zip(list(at.live.requests), list(at.live.peers))]
    return [
        one for one in every if one[0].kind == wire.SET and {name for name, _ in one[0].bindings} & {*ASKED.values()}
    ]


def shown(loopback: Loopback) -> list[bytes]:
    """What the sign says that it shows, and its message table's rows."""
    loopback.is_done = True
    loopback.join()
    return loopback.signs[0].process.hand([b"state"])


def test_brightness_is_set_and_read_back(tmp_path: pathlib.Path, where: str) -> None:
    loopback, at = standing(tmp_path, where, OBJECTS)
    try:
        person(at.store.database, "ann")
        worker = at.worker()
        went(at, worker)
        assert at.ended(worker, at.ask(HELLO)) == "accepted"
        first = dimmed(at, worker, Wish(BY_HAND[0], 3))
        assert (first.how, first.said) == ("accepted", {CONTROL: BY_HAND[0], LEVEL: 3})
        second = dimmed(at, worker, Wish(CONTROLS[0], None))
        assert (second.how, second.read_back) == ("accepted", "photocell") and second.said is not None
        assert second.said[LEVEL] == 3, "which stays as it was"
        found = sets(at)
        assert [[value for _, value in one.bindings] for one, _ in found] == [[(2, BY_HAND[0]), (2, 3)], [(2, 2)]]
        assert all(one.community == b"administrator" and one.number < 0 for one, _ in found)
        numbers = [wire.read(octets).number for octets in list(at.live.requests)]
        assert all(numbers.count(one.number) == 1 for one, _ in found), "no other request has its number"
        centre = {peer[1] for octets, peer in zip(at.live.requests, at.live.peers) if wire.read(octets).number >= 0}
        assert not centre & {port for _, port in found}, "its socket is not the centre's"
        assert at.ended(worker, at.ask(HELLO)) == "accepted", "and its centre goes on"
        assert b"HELLO".hex().encode() in shown(loopback)[0]
    finally:
        loopback.end()


def test_what_a_sign_refuses_is_said(tmp_path: pathlib.Path, where: str) -> None:
    objects = [line for line in OBJECTS if OF_BRIGHTNESS[1] not in line]
    loopback, at = standing(tmp_path, where, [*objects, b"object " + OF_BRIGHTNESS[1] + b"INTEGER 2 number 0 4"])
    try:
        person(at.store.database, "ann")
        worker = at.worker()
        went(at, worker)
        found = dimmed(at, worker, Wish(BY_HAND[0], 7))
        assert found.how == "refused: badValue for dmsIllumManLevel" and found.said == {CONTROL: 4, LEVEL: 2}
        assert len(sets(at)) == 1
    finally:
        loopback.end()


def test_what_has_no_answer_is_not_sent_again(tmp_path: pathlib.Path, where: str) -> None:
    loopback, at = standing(tmp_path, where, [])
    try:
        loopback.is_done = True
        loopback.join()
        person(at.store.database, "ann")
        at.store.devices.keep([DeviceSaid(at.sign_id, -1, {CONTROL: 4, LEVEL: 8}, {}, 0, frozenset(), True)])
        worker = at.worker()
        found = dimmed(at, worker, Wish(BY_HAND[0], 3))
        assert found.how == "no answer: whether the sign took it is not known" and found.read_back == ""
        ends = time.monotonic() + 3.0
        while time.monotonic() < ends:
            worker.round()
        came = []
        while (one := received(at.live.udp_socket)) is not None:
            came.append(wire.read(one[0]))
        assert sum(one.kind == wire.SET for one in came) == 1
    finally:
        loopback.end()
