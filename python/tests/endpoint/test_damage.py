"""What stands behind whole records: a torn end, whatever sectors of it reached the disk, or a bit that was changed."""

import itertools
import random
import zlib

from wisangub.endpoint import damage, older, records
from wisangub.endpoint.damage import End, begins, end_of, end_of_older
from wisangub.endpoint.records import SECTOR, Extent, whole

from .form1 import older as written_older

HEAD = b"journal 2 sign rules 1 description bench"


def datagram(chance: random.Random, least: int = 10, most: int = 40) -> bytes:
    """A line that hands a datagram over."""
    return b"datagram " + chance.randbytes(chance.randint(least, most)).hex().encode()


class Written:
    """A journal as a front end writes it: several records with one sync, some without any. `writes` are where each
    write begins, with the number of its first record and whether a sync came after it."""

    def __init__(self, chance: random.Random, writes: int, is_synced_last: bool = True) -> None:
        self.text, self.number, self.since = b"", 1, 1
        self.writes: list[tuple[int, int]] = []
        self.write([HEAD], True)
        self.write([b"start b 1795543676 5", b"clock 1795543676 5"], True)
        for at in range(writes):
            kind = chance.randrange(4)
            if kind == 0:
                self.write([b"ticks %d" % chance.randint(1, 60), b"heard"][: chance.randint(1, 2)], False)
            elif kind == 1:
                self.write([datagram(chance) for _ in range(chance.randint(1, 16))], True)
            else:
                self.write([b"ticks %d" % chance.randint(1, 60), datagram(chance)], True)
        if is_synced_last:
            self.write([b"ticks 3", datagram(chance)], True)

    def write(self, lines: list[bytes], is_synced: bool) -> None:
        self.writes.append((len(self.text), self.number))
        self.text += records.records(lines, self.number, self.since)
        self.number += len(lines)
        self.since = self.number if is_synced else self.since


def flipped(text: bytes, bit: int) -> bytes:
    at = bit // 8
    return text[:at] + bytes([text[at] ^ 1 << bit % 8]) + text[at + 1 :]


def judged(text: bytes) -> tuple[Extent, End]:
    found = whole(text)
    return found, end_of(text, found)


def last_ones(text: bytes, count: int) -> int:
    """Where the last so many records begin."""
    at = len(text)
    for _ in range(count):
        at = text.rfind(b"\n", 0, at - 1) + 1
    return at


def test_no_bit_that_is_changed_is_taken_for_a_torn_end() -> None:
    for seed in range(2):
        chance = random.Random(seed)
        text = Written(chance, 7, is_synced_last=seed > 0).text
        last = last_ones(text, 10)
        bits = [*range(8 * last, 8 * len(text)), *(chance.randrange(8 * last) for _ in range(1000))]
        bits = bits if seed else chance.sample(bits, 600)
        for bit in bits:
            found, end = judged(flipped(text, bit))
            assert end is End.DAMAGED and found.size <= bit // 8, (seed, bit, found, end)


def test_a_bit_that_makes_a_newline_is_no_torn_end() -> None:
    text = records.records([HEAD, b"tick", b"publish 3 1 J*J - 0 0 9 65535 255 127.0.0.1"])
    for at in (text.index(b"J*"), text.index(b"*J"), text.index(b"J -")):
        for bit in range(8):
            assert judged(flipped(text, 8 * at + bit))[1] is End.DAMAGED


def test_a_sector_of_zeros_is_damage_where_something_synced_stands_behind_it() -> None:
    for seed in range(4):
        written = Written(random.Random(seed), 40)
        for at in range(0, len(written.text), SECTOR):
            text = written.text[:at] + bytes(len(written.text[at : at + SECTOR])) + written.text[at + SECTOR :]
            found, end = judged(text)
            begin, number = written.writes[-1]
            if at + SECTOR <= begin:
                assert end is End.DAMAGED, (seed, at)
            elif found.number >= number:
                assert end is End.TORN and found.size >= begin, (seed, at)


def torn(text: bytes, begin: int, size: int, written: set[int]) -> bytes:
    """A file of this size whose octets from `begin` on are there in the sectors that were written."""
    octets = bytearray(text[:size])
    for at in range(begin, size):
        if at // SECTOR not in written:
            octets[at] = 0
    return bytes(octets)


def test_each_sector_of_the_last_write_is_cut_in_each_order() -> None:
    for seed, lines, least, most in ((1, 16, 40, 60), (2, 3, 300, 700), (3, 1, 1400, 1472), (4, 2, 20, 40)):
        chance = random.Random(seed)
        written = Written(chance, 20)
        written.write([b"ticks 4", *(datagram(chance, least, most) for _ in range(lines))], True)
        begin, number = written.writes[-1]
        sectors = range(begin // SECTOR, (len(written.text) - 1) // SECTOR + 1)
        sizes = {len(written.text), begin + 1, *(min(len(written.text), SECTOR * (at + 1)) for at in sectors)}
        for count in range(len(sectors) + 1):
            for some in itertools.islice(itertools.combinations(sectors, count), 12):
                for size in sizes:
                    text = torn(written.text, begin, size, set(some))
                    found, end = judged(text)
                    is_all = text == written.text[:size]
                    assert end is End.TORN or is_all and found.size == size, (seed, some, size, found, end)
                    assert begin <= found.size and written.text.startswith(text[: found.size]), (seed, some, size)
                    assert number <= found.number


def test_each_cut_of_a_file_is_a_torn_end() -> None:
    text = Written(random.Random(5), 7).text
    for size in range(1, len(text) + 1):
        found, end = judged(text[:size])
        assert end is (End.NONE if found.size == size else End.TORN)
        assert found.size == text.rfind(b"\n", 0, size) + 1


def test_writes_without_a_sync_are_torn_in_any_order() -> None:
    chance = random.Random(9)
    written = Written(chance, 10)
    begin = len(written.text)
    for _ in range(60):
        written.write([b"ticks 9", b"heard"], False)
    sectors = range(begin // SECTOR, (len(written.text) - 1) // SECTOR + 1)
    for _ in range(150):
        some = {at for at in sectors if chance.random() < 0.5}
        text = torn(written.text, begin, len(written.text), some)
        found, end = judged(text)
        assert (end is End.TORN or text == written.text) and found.size >= begin


def test_exchanged_and_missing_records_are_damage() -> None:
    text = records.records([HEAD, *(b"ticks %d" % at for at in range(1, 9))])
    ends = [at for at in range(1, len(text) + 1) if text[at - 1 : at] == b"\n"]
    for first, second, third in zip(ends, ends[1:], ends[2:]):
        other = text[:first] + text[second:third] + text[first:second] + text[third:]
        assert judged(other) == (whole(text[:first]), End.DAMAGED)
        assert judged(text[:first] + text[second:]) == (whole(text[:first]), End.DAMAGED)


def test_more_than_one_write_is_no_torn_end() -> None:
    text = records.records([HEAD, b"tick"])
    for more in (b"\0", b"3"):
        for most, wanted in ((damage.MOST_TORN, End.TORN), (damage.MOST_TORN + 1, End.DAMAGED)):
            assert judged(text + more * most)[1] is wanted
    assert judged(text + b"datagram 30")[1] is End.TORN
    assert judged(text + b"two\nlines\n")[1] is judged(text + b"one\nand")[1] is judged(text + b"\n")[1] is End.DAMAGED


def test_a_newline_that_is_lost_is_no_torn_end() -> None:
    text = records.records([HEAD, b"tick", b"ticks 7"])
    for lost in (b"\x0b", b" ", b"x"):
        for after in (b"", b"data", b"datagram 30", bytes(600), b"x" + bytes(600)):
            assert judged(text[:-1] + lost + after)[1] is End.DAMAGED, (lost, after)
    begin = len(records.records([HEAD, b"tick"]))
    for zeros, end in ((1, End.DAMAGED), (20, End.DAMAGED), (600, End.TORN)):
        assert judged(text[:-1] + bytes(zeros)) == (whole(text[:begin]), end), zeros
    more = -len(records.records([HEAD, b"datagram ", b"tick"])) % SECTOR + 1
    text = records.records([HEAD, b"datagram " + b"3" * more, b"tick"])
    assert len(text) % SECTOR == 1
    assert judged(text[:-1] + b"\0")[1] is End.TORN  # the newline alone stands in the last sector


def test_a_hole_behind_a_changed_record_does_not_tear_it() -> None:
    text = records.records([HEAD, b"tick", b"ticks 7"])
    changed = text[:-3] + b"!" + text[-2:]
    for after in (b"", bytes(600), b"data", b"\0" * 600 + b"\n"):
        assert judged(changed + after)[1] is End.DAMAGED, after


def test_a_single_zero_is_no_sector() -> None:
    text = Written(random.Random(6), 30).text
    for at in range(last_ones(text, 10), len(text)):
        if text[at : at + 1] == b" ":
            assert judged(text[:at] + b"\0" + text[at + 1 :])[1] is End.DAMAGED, at


def test_the_sum_is_found_from_its_end() -> None:
    chance = random.Random(8)
    for _ in range(50):
        before, octets = chance.randbytes(chance.randrange(300)), chance.randbytes(chance.randint(5, 300))
        assert begins(before + octets, zlib.crc32(octets), 1)
        assert begins(before + octets, zlib.crc32(octets), len(octets))
        assert not begins(before + octets, zlib.crc32(octets), len(octets) + 1)
        assert not begins(before + octets, zlib.crc32(octets) ^ 1, 1)


def test_of_form_1_whatever_looks_like_a_record_is_one() -> None:
    chance = random.Random(3)
    lines = [b"journal 1 sign rules 1 description bench", *(datagram(chance) for _ in range(30)), b"ticks 7"]
    text = written_older(lines)
    ends = [at for at in range(1, len(text) + 1) if text[at - 1 : at] == b"\n"]
    assert older.whole(text) == len(text) and end_of_older(text, len(text)) is End.NONE
    for size in range(1, len(text)):
        assert end_of_older(text[:size], older.whole(text[:size])) is (End.NONE if size in ends else End.TORN)
    for bit in [*range(8 * ends[-4], 8 * len(text)), *(chance.randrange(8 * len(text)) for _ in range(300))]:
        other = flipped(text, bit)
        assert end_of_older(other, older.whole(other)) is End.DAMAGED, bit
    for at in range(0, len(text) - SECTOR, SECTOR):
        other = text[:at] + bytes(SECTOR) + text[at + SECTOR :]
        assert end_of_older(other, older.whole(other)) is End.DAMAGED, at
    last = len(text) - len(text) % SECTOR
    other = text[:last] + bytes(len(text) - last)
    assert end_of_older(other, older.whole(other)) is End.TORN


def test_of_form_1_a_newline_that_is_lost_is_no_torn_end() -> None:
    """Wherever it stood, also before what was not written to its end; a zero is one of a sector of zeros."""
    lines = [b"journal 1 sign rules 1 description bench", b"ticks 4", b"datagram 3001", b"ticks 5"]
    text = written_older(lines)
    ends = [at for at, octet in enumerate(text) if octet == 10]
    for end in ends[1:]:
        for octet in (0, 8, 11, 32, 35, 48, 255):
            for more in (b"", b"t", b"ticks 6 #0123456"):
                other = text[:end] + bytes([octet]) + more
                assert end_of_older(other, older.whole(other)) is End.DAMAGED, (end, octet, more)
    holed = text[: ends[-1]] + bytes(512 - ends[-1] + 512)
    assert end_of_older(holed, older.whole(holed)) is End.TORN
