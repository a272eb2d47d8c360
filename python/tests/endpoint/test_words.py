"""Addresses, Gets, readable texts, and the words of causes."""

from model import wire
from wisangub.endpoint.sockets import host_and_port, named
from wisangub.endpoint.texts import ended, published
from wisangub.refusal import Refusal
from wisangub.snmp.datagrams import fields_of
from wisangub.snmp.gets import is_get
from wisangub.snmp.mib import Mib
from wisangub.tester.requests import hostile_datagrams

ADDRESSES = [
    ("127.0.0.1:1161", ("127.0.0.1", 1161)),
    ("[::1]:1161", ("::1", 1161)),
    ("sign.example:65535", ("sign.example", 65535)),
    ("::1:1161", None),
    ("127.0.0.1", None),
    ("127.0.0.1:0", None),
    ("127.0.0.1:65536", None),
    (":1161", None),
    ("a:b", None),
]
GET = bytes.fromhex("302e02010004067075626c6963a0210201010201000201003016301406102b0601040189360402030508010903010500")
PUBLISHED = [
    (
        'publish-text 3 1 "LANE CLOSED[nl]1 KM" - 0 0 100 65535 255 127.0.0.1',
        "publish 3 1 4c414e4520434c4f5345445b6e6c5d31204b4d - 0 0 100 65535 255 127.0.0.1",
    ),
    ('publish-text 3 1 A "me" 0 0 100 65535 255 127.0.0.1', "publish 3 1 41 6d65 0 0 100 65535 255 127.0.0.1"),
    ('publish-text 3 1 "\\"-\\\\" "-" 0 0 1 2 3 127.0.0.1', "publish 3 1 222d5c 2d 0 0 1 2 3 127.0.0.1"),
    ('publish-text 3 1 "\u00e9\u00ff" "" 0 0 1 2 3 127.0.0.1', "publish 3 1 e9ff - 0 0 1 2 3 127.0.0.1"),
]
REFUSED = [
    ('publish-text 3 1 "A \u20ac" - 0 0 1 2 3 127.0.0.1', "TEXT: character 3, U+20AC,"),
    ('publish-text 3 1 "A', "character 18"),
    ('publish-text 3 1 A"B" - 0 0 1 2 3 127.0.0.1', "character 18"),
    ("publish-text 3 1", "wants 10 words"),
]
ENDED = [
    ("last failed at step 7: the sign refused the activation for cause 3", ", priority"),
    ("last failed at step 3: error-status 5", ", genErr"),
    ("last failed at step 2: the row has status 5", ", error"),
    ("ledger 8 ffffff030001ccc67f000001 refused 5", ", genErr"),
    ("last accepted", ""),
    ("ledger 8 ffffff030001ccc67f000001 accepted", ""),
    ("idle", ""),
    ("last failed at step 7: the sign refused the activation for cause 77", ""),
]


def refused(line: str) -> str:
    """Why a line is refused."""
    try:
        return "taken: " + published(line)
    except Refusal as found:
        return str(found)


def test_an_address_is_a_host_and_a_port_or_refused() -> None:
    for words, wanted in ADDRESSES:
        try:
            found = host_and_port(words)
        except Refusal:
            found = None
        assert found == wanted, words
        assert found is None or named(found) == words


def test_a_readable_text_is_published_or_refused_in_words() -> None:
    for line, wanted in PUBLISHED:
        assert published(line) == wanted
    for line, words in REFUSED:
        assert words in refused(line), line


def test_causes_and_statuses_have_the_words_of_the_mib() -> None:
    for line, more in ENDED:
        assert ended(Mib.read(), line) == line + more


def test_a_get_is_known_by_its_outer_elements_alone() -> None:
    assert is_get(GET)
    assert is_get(GET.replace(b"\xa0\x21", b"\xa1\x21"))
    for octets in (
        b"",
        GET[:-1],
        GET + b"\0",
        GET.replace(b"\xa0\x21", b"\xa3\x21"),
        b"\x30\x81" + GET[1:],
        GET.replace(b"\x02\x01\x00\x04", b"\x02\x01\x01\x04"),
    ):
        assert not is_get(octets)
    long = b"\x30\x81\x2f\x02\x01\x00\x04\x81\x06public" + GET[13:]
    assert not is_get(long)


def test_what_is_taken_for_a_get_changes_nothing_that_it_spells() -> None:
    maker, taken = hostile_datagrams.Maker(1), 0
    for _ in range(4000):
        octets = maker.hostile([wire.GET, wire.GET_NEXT, wire.SET, wire.SET, wire.RESPONSE], 7)
        message = wire.spelled(octets)
        taken += is_get(octets)
        assert not is_get(octets) or message is None or message.kind in (wire.GET, wire.GET_NEXT)
    assert taken > 500


def test_a_datagram_in_words() -> None:
    fields = fields_of(Mib.read(), GET)
    assert fields == {
        "kind": "Get",
        "community": "public",
        "request-id": 1,
        "bindings": [{"name": "dmsMessageStatus.3.1", "value": ""}],
    }
    assert fields_of(Mib.read(), GET[:-1]) == {"fault": "Truncated", "offset": len(GET) - 1}
