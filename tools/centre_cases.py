"""Writes crates/dms_centre_tests/src/centres/cases.rt: requests of the central system and replies to them, in octets,
with words before each that say what it is.

    python3 tools/centre_cases.py > crates/dms_centre_tests/src/centres/cases.rt

The octets are made here from NTCIP 1203's names, X.690's short forms and RFC 1157's messages, with nothing of the
repository's code. What it writes is laid out as by rt fmt.
"""

from collections.abc import Sequence

_Bindings = list[tuple[bytes, bytes]]  # a name and a value, each in octets
_Step = tuple[str, bytes, bytes]  # what it is in words, the request and the reply
_COMMUNITY = b"admin"
_DMS = (1, 3, 6, 1, 4, 1, 1206, 4, 2, 3)
GET, _RESPONSE, SET = 0xA0, 0xA2, 0xA3
TEXT, OWNER, _CHECKSUM, BEACON, _PIXEL_SERVICE, PRIORITY, _STATUS = 3, 4, 5, 6, 7, 8, 9


def _element(tag: int, content: bytes) -> bytes:
    size = len(content)
    if size < 128:
        return bytes([tag, size]) + content
    digits = size.to_bytes((size.bit_length() + 7) // 8, "big")
    return bytes([tag, 128 + len(digits)]) + digits + content


def _integer(number: int) -> bytes:
    return _element(2, number.to_bytes(number.bit_length() // 8 + 1, "big"))


def octets(content: bytes) -> bytes:
    return _element(4, content)


NULL = _element(5, b"")


def name(numbers: tuple[int, ...]) -> bytes:
    content = bytes([40 * numbers[0] + numbers[1]])
    for number in numbers[2:]:
        digits = [number % 128]
        while number >= 128:
            number //= 128
            digits.insert(0, 128 + number % 128)
        content += bytes(digits)
    return _element(6, content)


def cell(column: int, row: tuple[int, int]) -> bytes:
    return name(_DMS + (5, 8, 1, column) + row)


def _scalar(number: int) -> bytes:
    return name(_DMS + (6, number, 0))


def message(
    kind: int, number: int, bindings: _Bindings, status: int = 0, index: int = 0, community: bytes = _COMMUNITY
) -> bytes:
    listed = _element(0x30, b"".join(_element(0x30, one + value) for one, value in bindings))
    pdu = _element(kind, _integer(number) + _integer(status) + _integer(index) + listed)
    return _element(0x30, _integer(0) + octets(community) + pdu)


def checksum(content: bytes) -> int:
    register = 0xFFFF
    for octet in content:
        register ^= octet
        for _ in range(8):
            register = (register >> 1) ^ (0x8408 if register & 1 else 0)
    return register ^ 0xFFFF


assert checksum(b"123456789") == 0x906E


class _Publication:
    def __init__(
        self,
        row: tuple[int, int],
        text: bytes,
        owner: bytes,
        beacon: int,
        pixel: int,
        run_priority: int,
        swapped: bool,
    ) -> None:
        self.row = row
        crc = checksum(text + bytes([beacon, pixel])).to_bytes(2, "big")
        self.crc = crc[::-1] if swapped else crc
        self.fields = [
            (cell(TEXT, row), octets(text)),
            (cell(OWNER, row), octets(owner)),
            (cell(BEACON, row), _integer(beacon)),
            (cell(_PIXEL_SERVICE, row), _integer(pixel)),
            (cell(PRIORITY, row), _integer(run_priority)),
        ]
        memory, number = row
        self.code = bytes([255, 255, 255, memory]) + number.to_bytes(2, "big") + self.crc + bytes([192, 0, 2, 1])

    def sets(self, number: int, bindings: _Bindings) -> tuple[bytes, bytes]:
        return message(SET, number, bindings), message(_RESPONSE, number, bindings)

    def reads(self, number: int, column: int, value: int) -> tuple[bytes, bytes]:
        asked = cell(column, self.row)
        return message(GET, number, [(asked, NULL)]), message(_RESPONSE, number, [(asked, _integer(value))])

    def steps(self) -> list[_Step]:
        status, row = cell(_STATUS, self.row), "row {}.{}".format(*self.row)
        return [
            (f"{row} is to be modified", *self.sets(1, [(status, _integer(6))])),
            (f"whether {row} is being modified: it is", *self.reads(2, _STATUS, 2)),
            (f"text, owner, beacon, pixel service and priority of {row}", *self.sets(3, self.fields)),
            (f"{row} is to be validated", *self.sets(4, [(status, _integer(7))])),
            (f"whether {row} is valid: it is", *self.reads(5, _STATUS, 4)),
            (f"the checksum of {row}, as it should be", *self.reads(6, _CHECKSUM, int.from_bytes(self.crc, "big"))),
            (f"{row} is activated, and accepted", *self.sets(7, [(_scalar(3), octets(self.code))])),
        ]


A = _Publication((3, 1), b"A", b"", 0, 0, 200, False)
LONG = _Publication((4, 300), b"[jl2]" + b"A" * 150, b"operator", 1, 1, 1, True)


def _literal(content: bytes) -> str:
    return 'b"' + "".join(f"\\x{octet:02x}" for octet in content) + '"'


def _print_rows(title: str, about: str, kind: str, rows: Sequence[tuple[object, ...]]) -> None:
    """Rows of words and fields."""
    print(f"\n/// {about}\npub static {title}: [{kind}; {len(rows)}] = [")
    for words, *fields in rows:
        print(f"    // {words}\n    (")
        for field in fields:
            print(f"        {field},")
        print("    ),")
    print("];")


def _print_steps(title: str, about: str, steps: list[_Step]) -> None:
    rows = [(words, _literal(request), _literal(reply)) for words, request, reply in steps]
    _print_rows(title, about, "(&[u8], &[u8])", rows)


def _print_octets(title: str, about: str, content: bytes) -> None:
    print(f"\n/// {about}\npub static {title}: [u8; {len(content)}] =\n    *{_literal(content)};")


def error(number: int, bindings: _Bindings, status: int, index: int = 1) -> bytes:
    return message(_RESPONSE, number, bindings, status, index)


_status_cell = cell(_STATUS, A.row)
_reported = (_status_cell, _integer(2))
_ENDINGS = [
    ("error-status 5 at the first request", 0, error(1, [(_status_cell, _integer(6))], 5), "Failed(1, Why::Status(5))"),
    (
        "the row has status 5 where 2 is wanted",
        1,
        message(_RESPONSE, 2, [(_status_cell, _integer(5))]),
        "Failed(2, Why::WrongStatus(5))",
    ),
    ("there is no such row", 1, error(2, [(_status_cell, NULL)], 2), "Failed(2, Why::Status(2))"),
    ("two bindings where one is wanted", 1, message(_RESPONSE, 2, [_reported, _reported]), "Failed(2, Why::OddReply)"),
    ("no binding", 1, message(_RESPONSE, 2, []), "Failed(2, Why::OddReply)"),
    (
        "the status of another row",
        1,
        message(_RESPONSE, 2, [(cell(_STATUS, (3, 2)), _integer(2))]),
        "Failed(2, Why::OddReply)",
    ),
    (
        "a status that is no number",
        1,
        message(_RESPONSE, 2, [(_status_cell, octets(b"\2"))]),
        "Failed(2, Why::OddReply)",
    ),
    ("error-status 3 at the fields", 2, error(3, A.fields, 3), "Failed(3, Why::Status(3))"),
    (
        "error-status 5 where the row is to be validated",
        3,
        error(4, [(_status_cell, _integer(7))], 5),
        "Failed(4, Why::Status(5))",
    ),
    (
        "the row has status 5 where 4 is wanted",
        4,
        message(_RESPONSE, 5, [(_status_cell, _integer(5))]),
        "Failed(5, Why::WrongStatus(5))",
    ),
    (
        "the checksum of another text",
        5,
        message(_RESPONSE, 6, [(cell(_CHECKSUM, A.row), _integer(0x7502))]),
        "Failed(6, Why::OtherChecksum)",
    ),
    (
        "the checksum with its octets in the other order",
        5,
        message(_RESPONSE, 6, [(cell(_CHECKSUM, A.row), _integer(0x669A))]),
        "Failed(6, Why::OtherChecksum)",
    ),
]

_first_reply = A.steps()[0][2]
_FOREIGN = [
    ("of another community", message(_RESPONSE, 1, [(_status_cell, _integer(6))], community=b"public")),
    ("to a later request", message(_RESPONSE, 2, [(_status_cell, _integer(6))])),
    ("to an earlier request", message(_RESPONSE, 0, [(_status_cell, _integer(6))])),
    ("a SET and no Response", message(SET, 1, [(_status_cell, _integer(6))])),
    ("without its last octet", _first_reply[:-1]),
    ("with an octet more", _first_reply + b"\0"),
    ("nothing", b""),
]

activate = (_scalar(3), octets(A.code))
cause = _scalar(17)
_LAST = 2147483647

print(
    """//! Requests of the central system and replies to them, made by tools/centre_cases.py with nothing of this
//! repository's code.
use dms_centre::{Ended, Why};"""
)
_print_steps(
    "PUBLISHED",
    "The requests that publish `A` in changeable row 1, the high octet of a checksum first, and good replies.",
    A.steps(),
)
_print_steps(
    "PUBLISHED_SWAPPED",
    "Those that publish a longer text in volatile row 300, the low octet of a checksum first.",
    LONG.steps(),
)
_print_steps(
    "POLLS",
    "Ten polls, each answered by validating.",
    [(f"poll {number - 4}: still being validated", *A.reads(number, _STATUS, 3)) for number in range(5, 15)],
)
_print_rows(
    "ENDINGS",
    "How many good replies there were, the next reply, and how it ends the publication.",
    "(usize, &[u8], Ended)",
    [(words, count, _literal(reply), "Ended::" + ended) for words, count, reply, ended in _ENDINGS],
)
print(f"\n/// What does not answer request 1.\npub static FOREIGN: [&[u8]; {len(_FOREIGN)}] = [")
for words, datagram in _FOREIGN:
    print(f"    // {words}\n    {_literal(datagram)},")
print("];")
_print_octets(
    "GET",
    "A Get of dmsMessageStatus.3.1 by another community.",
    message(GET, 1, [(_status_cell, NULL)], community=b"public"),
)
_print_octets("NOTHING_BOUND", "A Response to request 1 that has no binding.", message(_RESPONSE, 1, []))
_print_octets("REFUSED", "The activation of `A` as request 7 is refused.", error(7, [activate], 5))
_print_octets("WHY", "Request 8, which asks for the cause.", message(GET, 8, [(cause, NULL)]))
_print_octets("PRIORITY", "The cause is the priority.", message(_RESPONSE, 8, [(cause, _integer(3))]))
_print_octets(
    "BLANK",
    "Blank message 255 as request 1, without end.",
    message(SET, 1, [(_scalar(3), octets(bytes.fromhex("ffffff0700ff000000000000")))]),
)
_print_octets(
    "BLANK_ACCEPTED",
    "It is accepted.",
    message(_RESPONSE, 1, [(_scalar(3), octets(bytes.fromhex("ffffff0700ff000000000000")))]),
)
_print_octets("LAST_ACTIVATION", "The activation of `A` under the last number.", message(SET, _LAST, [activate]))
_print_octets("LAST_REFUSED", "It is refused.", error(_LAST, [activate], 5))
