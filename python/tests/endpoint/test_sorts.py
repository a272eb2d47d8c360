"""What a datagram can do to a sign, beside the model that reads it by itself."""

import random

from model import text, wire
from model.sign import Sign
from tests.snmp.datagrams import mutated, requests
from wisangub.endpoint.sorts import Sort, sort_of

WHO = (b"public", b"admin")
COUNTER = (1, 3, 6, 1, 4, 1, 1206, 4, 2, 3, 6, 10, 0)

CHANGED = [(*COUNTER[:10], *rest) for rest in ((4, 1, 0), (6, 10, 0), (6, 3, 0), (6, 5, 0), (6, 17, 0), (5, 9, 0))]


def test_what_is_not_answered_or_changes_nothing_is_told_by_the_datagram() -> None:
    chance, sign = random.Random(2), Sign(text.bench())
    for octets in requests():
        for one in (octets, *(mutated(octets, chance) for _ in range(5))):
            sort = sort_of(one, *WHO)
            before = {name: sign.objects.value(name) for name in CHANGED} if sort is not Sort.CHANGING else {}
            reply, _ = sign.receive(one)
            assert reply is None or sort is not Sort.UNANSWERED, one.hex()
            assert all(sign.objects.value(name) == value for name, value in before.items()), one.hex()


def test_each_datagram_is_of_its_sort() -> None:
    def written(kind: int, community: bytes, bindings: int = 1) -> bytes:
        value = (wire.INTEGER, 7)
        return bytes(wire.written(wire.Message(kind, community, 5, 0, 0, [(COUNTER, value)] * bindings)))

    rows = [
        (b"", Sort.UNANSWERED),
        (b"\0" * 1472, Sort.UNANSWERED),
        (written(wire.SET, b"admin") + b"\0", Sort.UNANSWERED),
        (written(wire.SET, b"admin").replace(b"\x02\x01\x00", b"\x02\x01\x01", 1), Sort.UNANSWERED),
        (written(wire.SET, b"Admin"), Sort.UNANSWERED),
        (written(wire.SET, b"admin "), Sort.UNANSWERED),
        (written(wire.SET, b""), Sort.UNANSWERED),
        (written(wire.RESPONSE, b"admin"), Sort.UNANSWERED),
        (written(wire.RESPONSE, b"public"), Sort.UNANSWERED),
        (written(wire.SET, b"admin", 200), Sort.UNANSWERED),  # over 1,472 octets
        (written(wire.SET, b"public"), Sort.HEARD),
        (written(wire.SET, b"public", 0), Sort.HEARD),
        (written(wire.GET, b"public"), Sort.HEARD),
        (written(wire.GET_NEXT, b"admin"), Sort.HEARD),
        (written(wire.SET, b"admin"), Sort.CHANGING),
        (written(wire.SET, b"admin", 0), Sort.CHANGING),
    ]
    for octets, sort in rows:
        assert sort_of(octets, *WHO) is sort, (octets.hex(), sort)
    longer = b"\x30\x81" + bytes([len(written(wire.GET, b"public")) - 2]) + written(wire.GET, b"public")[2:]
    assert sort_of(longer, *WHO) is Sort.HEARD
