"""What a sign's page shows: what is lit, whose it is, the table, and the last datagrams, as they come."""

import json
import os
import pathlib
from collections.abc import Iterator

import pytest

from wisangub.endpoint.page.exchanges import MOST
from wisangub.process.places import TOP
from wisangub.snmp import wire
from wisangub.snmp.names import scalar

from .bench import READER, SIGN, Bench, Said, bench

WIDTH = scalar("vmsSignWidthPixels")


@pytest.fixture(scope="module")
def one() -> Iterator[Bench]:
    with bench() as made:
        yield made


def events(octets: bytes) -> list[Said]:
    """Those that are whole in what a browser has read."""
    lines = octets.partition(b"\r\n\r\n")[2].split(b"\n\n")[:-1]
    return [json.loads(line.removeprefix(b"data: ")) for line in lines]


def test_events_come_after_a_set(one: Bench) -> None:
    with one.listener() as browser:
        held = b""
        while not events(held):
            held += browser.recv(1 << 16)
        assert set(events(held)[0]) == {"run", "lamps", "shown", "table", "datagrams"}
        one.publish(b"FOG")
        while not any(part.get("shown", {}).get("text") == "FOG" for part in events(held)):
            held += browser.recv(1 << 16)
        number = events(held)[0]["lamps"]["number"]
        while not any(part.get("lamps", {}).get("number", number) > number for part in events(held)):
            held += browser.recv(1 << 16)
    facts = one.facts()
    assert facts["Mode"] == "central (8)" and facts["Left"] == "without end"
    assert facts["Message"].startswith("changeable 1, checksum ")


def test_what_has_not_changed_is_not_told_again(one: Bench) -> None:
    with one.listener() as browser:
        held = b""
        while len(events(held)) < 2:
            one.get(WIDTH)
            held += browser.recv(1 << 16)
    assert set(events(held)[1]) == {"datagrams"}


def test_who_and_the_table(one: Bench) -> None:
    one.publish(b"FOG")
    one.shows("shown", "127.0.0.1")
    one.shows("table", '"changeable 1", "valid", "FOG"')
    table = one.state()["table"]
    assert [row[:2] for row in table["rows"][:2]] == [["permanent 1", "valid"], ["permanent 2", "valid"]]
    assert table["unused"] == "31 changeable, 8 volatile" and not table["older"]


def test_fifty_datagrams_are_kept_and_no_more(one: Bench) -> None:
    for _ in range(MOST + 10):
        one.get(WIDTH)
    held = one.state()["datagrams"]
    numbers = [said["number"] for said in held]
    assert MOST == 50 and numbers == list(range(numbers[0], numbers[0] - 50, -1))
    request, reply = held[0]["request"], held[0]["reply"]
    assert request["kind"] == "Get" and request["bindings"] == [{"name": "vmsSignWidthPixels.0", "value": ""}]
    assert reply["error-status"] == "noError" and reply["bindings"][0]["value"] == "96"


def test_communities_are_not_told(one: Bench) -> None:
    one.publish(b"FOG")
    one.send(wire.GET, b"a guess", [(WIDTH, (wire.NULL, b""))])
    one.get(WIDTH)
    one.shows("datagrams", "another")
    told = one.asked("GET", "/state", {})[1] + one.asked("GET", "/", {})[1]
    assert "administrator" not in told and "a guess" not in told
    found = {said["request"]["community"] for said in one.state()["datagrams"]}
    assert found == {"reader", "writer", "another"}
    assert next(said for said in one.state()["datagrams"] if said["request"]["community"] == "another")["fate"]


def test_what_is_no_message_is_shown(one: Bench) -> None:
    one.manager.sendto(b"\x30\x80", ("127.0.0.1", one.port))
    one.shows("datagrams", "BadLength")
    assert one.state()["datagrams"][0]["fate"] == "not answered"


def test_a_refused_activation_is_named(one: Bench) -> None:
    one.publish(b"FOG")
    code = bytes.fromhex("ffffff0300010000") + bytes((127, 0, 0, 1))
    one.send(wire.SET, b"administrator", [(scalar("dmsActivateMessage"), (wire.OCTETS, code))])
    found = one.reply()
    assert found is not None and found.status == wire.GENERAL
    one.shows("shown", "messageCRC (7)")
    one.shows("shown", code.hex())


def test_the_reader_alone_sees_the_same(one: Bench) -> None:
    one.send(wire.SET, READER, [(scalar("dmsTimeCommLoss"), (wire.INTEGER, 1))])
    found = one.reply()
    assert found is not None and found.status == wire.NO_SUCH_NAME
    one.shows("datagrams", "noSuchName")


def test_a_name_that_is_no_utf_8_is_shown(tmp_path: pathlib.Path) -> None:
    sign = tmp_path / os.fsdecode(b"\xff<b>.sign")
    sign.write_bytes((TOP / SIGN).read_bytes())
    with bench(sign=str(sign)) as other:
        status, text, _ = other.asked("GET", "/", {})
    assert status == 200 and "\\udcff&lt;b>.sign</title>" in text
