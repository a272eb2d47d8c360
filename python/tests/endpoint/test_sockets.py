"""A datagram that goes out after another one met a fault on its way."""

import errno
import socket
import time
from typing import cast

from wisangub.endpoint.sockets import bound, connected, named, received, sent


class Unreachable:
    """A socket of which the next calls tell these faults."""

    def __init__(self, *faults: int) -> None:
        self.faults = list(faults)
        self.out: list[bytes] = []

    def send(self, octets: bytes) -> int:
        if self.faults:
            raise OSError(self.faults.pop(0), "a fault")
        self.out.append(octets)
        return len(octets)


def test_the_fault_of_an_earlier_datagram_loses_no_other_one() -> None:
    for earlier in (errno.ECONNREFUSED, errno.EHOSTUNREACH, errno.ENETUNREACH, errno.EPROTO):
        front_end = Unreachable(earlier)
        assert sent(cast(socket.socket, front_end), b"a") is None and front_end.out == [b"a"]


def test_a_datagram_that_is_lost_is_told() -> None:
    fault = sent(cast(socket.socket, Unreachable(errno.ECONNREFUSED, errno.EMSGSIZE)), b"a")
    assert fault is not None and fault.errno == errno.EMSGSIZE


def test_a_port_that_opens_again_gets_the_next_datagram() -> None:
    peer = bound("127.0.0.1", 0)
    port = int(peer.getsockname()[1])
    peer.close()
    with connected("127.0.0.1", port) as front_end:
        assert sent(front_end, b"lost") is None
        time.sleep(0.05)
        with bound("127.0.0.1", port) as again:
            assert sent(front_end, b"heard") is None
            again.settimeout(5)
            assert again.recv(10) == b"heard"
            again.settimeout(0.1)
            begun = time.monotonic()
            assert received(again) is None and time.monotonic() < begun + 2


def test_an_address_of_one_interface_is_named_with_it() -> None:
    number, interface = socket.if_nameindex()[0]
    assert named(("fe80::1", 161, 0, number)) == f"[fe80::1%{interface}]:161"
    assert named(("fe80::1", 161, 0, 99_999)) == "[fe80::1%99999]:161"
    assert named(("::1", 161, 0, 0)) == "[::1]:161" and named(("192.0.2.1", 161)) == "192.0.2.1:161"
