"""What was sent and what came, as a capture that Wireshark and tcpdump read: `--pcap FILE`."""

import contextlib
import ipaddress
import struct
import time
from typing import BinaryIO

from .link import Link

_MAGIC, _VERSION, _MOST, _RAW = 0xA1B2C3D4, (2, 4), 65535, 101  # microseconds; packets that begin with their IP header
_UDP, _HOPS = 17, 64
Address = tuple[str, int]


class Capture:
    """A link whose datagrams are also written to a file, each with IP and UDP headers and the time of day. Checksums
    of UDP are left out, and those of IP are 0. A disk that is full ends the capture, and not the test."""

    def __init__(self, link: Link, file: BinaryIO, here: Address, there: Address) -> None:
        self._link, self._file, self._here, self._there = link, file, here, there
        self._fault: OSError | None = None
        file.write(struct.pack("<IHHiIII", _MAGIC, *_VERSION, 0, 0, _MOST, _RAW))

    def send(self, octets: bytes) -> None:
        self._write(octets, self._here, self._there)
        self._link.send(octets)

    def receive(self, until: float) -> bytes | None:
        octets = self._link.receive(until)
        if octets is not None:
            self._write(octets, self._there, self._here)
        return octets

    def close(self) -> None:
        """Raises OSError where the file has not all."""
        self._link.close()
        with contextlib.suppress(OSError):
            self._file.close()
        if self._fault is not None:
            raise self._fault

    def _write(self, octets: bytes, sender: Address, receiver: Address) -> None:
        if self._fault is not None:
            return
        packet = packet_of(octets, sender, receiver)[:_MOST]
        moment = time.time()
        head = struct.pack("<IIII", int(moment), int(moment % 1 * 1e6), len(packet), len(packet))
        try:
            self._file.write(head + packet)
            self._file.flush()
        except OSError as fault:
            self._fault = OSError(fault.errno, f"the capture ends early: {fault.strerror}", self._file.name)


def packet_of(octets: bytes, sender: Address, receiver: Address) -> bytes:
    """A datagram with its headers, of IPv4 or IPv6 as the addresses are."""
    datagram = struct.pack(">HHHH", sender[1], receiver[1], (8 + len(octets)) & 0xFFFF, 0) + octets
    source, target = (ipaddress.ip_address(host.split("%")[0]) for host in (sender[0], receiver[0]))
    if source.version == 6:
        return (
            struct.pack(">IHBB", 6 << 28, len(datagram) & 0xFFFF, _UDP, _HOPS)
            + source.packed
            + target.packed
            + datagram
        )
    head = struct.pack(">BBHHHBBH", 0x45, 0, (20 + len(datagram)) & 0xFFFF, 0, 0, _HOPS, _UDP, 0)
    return head + source.packed + target.packed + datagram
