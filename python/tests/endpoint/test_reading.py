"""Files that were a journal, changed in any way: what is read of one is how it began, or why it is refused."""

import random
import re

from wisangub.endpoint import reading, records
from wisangub.endpoint.records import Head
from wisangub.refusal import Refusal

from .form1 import older

HEAD = Head("sign", "bench")


def written(chance: random.Random, form: int) -> tuple[bytes, list[bytes]]:
    """A journal of this form, and its lines but for the front end's own."""
    lines = [b"start b 1795543676 5", b"clock 1795543676 5"]
    for _ in range(chance.randrange(25)):
        more = b"datagram " + chance.randbytes(chance.randint(1, 200)).hex().encode()
        lines += chance.choice([[b"ticks 7", b"heard"], [more], [more, b"ticks 3"], [b"clock 1795543690 9"]])
    head = HEAD._replace(form=form).line()
    text = older([head, *lines]) if form == 1 else b""
    number = since = 1
    left = [] if form == 1 else [head, *lines]
    while left:
        count, is_synced = chance.randint(1, 6), chance.random() < 0.6
        some, left = left[:count], left[count:]
        text += records.records(some, number, since)
        number += len(some)
        since = number if is_synced else since
    return text, [line for line in lines if not line.startswith(records.OWN)]


def changed(text: bytes, chance: random.Random) -> bytes:
    """The file with octets changed, zeroed, put in, left out, exchanged or doubled."""
    made = bytearray(text)
    for _ in range(chance.randint(1, 3)):
        at, size = chance.randrange(len(made) + 1), chance.choice([1, 2, 9, 100, 512, 513])
        kind = chance.randrange(8)
        if kind == 0 and at < len(made):
            made[at] ^= 1 << chance.randrange(8)
        elif kind == 1:
            made[at : at + size] = bytes(len(made[at : at + size]))
        elif kind == 2:
            made[at:at] = chance.choice([b"\n", b"\0", b"#", chance.randbytes(size)])
        elif kind == 3:
            del made[at : at + size]
        elif kind == 4:
            made[at:at] = made[chance.randrange(len(made) + 1) :][:size]
        elif kind == 5:
            del made[at:]
        elif kind == 6:
            at -= at % 512
            made[at : at + 512] = bytes(len(made[at : at + 512]))
        else:
            ends = [0, *(found.end() for found in re.finditer(rb"\n", bytes(made)))]
            one, two, three = sorted(chance.choice(ends) for _ in range(3))
            made = made[:one] + made[two:three] + made[one:two] + made[three:]
        made = made or bytearray(b"x")
    return bytes(made)


def test_what_is_read_of_a_changed_file_is_what_was_written() -> None:
    read = refused = 0
    for seed in range(400):
        chance = random.Random(seed)
        text, lines = written(chance, 1 + seed % 2)
        octets = changed(text, chance)
        try:
            found = reading.read("it", octets, HEAD, accepts=seed % 4 < 2)
        except Refusal as fault:
            refused += 1
            assert "damaged at octet" in str(fault) or "is no journal" in str(fault), fault
            continue
        if found is not None:
            read += 1
            some = [line for part in found.lines(octets) for line in part]
            assert some == lines[: len(some)] and octets[: found.size] == text[: found.size], seed
            assert found.head.form == 1 or records.whole(octets[: found.size]).number == found.number, seed
    assert read > 50 and refused > 50


def test_what_was_answered_is_not_left_out_but_where_sectors_are_gone() -> None:
    for seed in range(300):
        chance = random.Random(seed)
        text, _ = written(chance, 2)
        at = chance.randrange(len(text))
        octets = text[:at] + bytes([text[at] ^ chance.randint(1, 255)]) + text[at + 1 :]
        try:
            found = reading.read("it", octets, HEAD, accepts=False)
            assert found is not None and octets[at] == 0, (seed, at)  # a sector of which one octet is there
        except Refusal:
            pass
