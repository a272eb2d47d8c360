"""Writes crates/dms_wire_tests/src/messages/cases.rt from a file of cases.

    python3 tools/wire_cases.py CASES.jsonl > crates/dms_wire_tests/src/messages/cases.rt

Each line of CASES.jsonl is {"octets": HEX, "canonical": HEX} for a datagram that spells a message, or
{"octets": HEX, "fault": NUMBER, "place": OFFSET} for one that spells none. The short ones are kept, in tables of
CHUNK rows: the time that a table takes to check grows faster than its length. What it writes is laid out as by rt fmt,
with words before each row: what the message is, or in which of its elements the fault is.
"""

import argparse
import json
import pathlib
from collections.abc import Iterator, Sequence
from typing import Any

_KINDS = [
    "",
    "TRUNCATED",
    "BAD_TAG",
    "BAD_LENGTH",
    "LENGTH_PAST",
    "BAD_INTEGER",
    "BAD_NAME",
    "BAD_VERSION",
    "TRAILING_BYTES",
    "TOO_LONG",
]
_Case = dict[str, Any]  # a line of CASES.jsonl
_LONGEST = 160
_MOST_SPELLED = 80
_CHUNK = 20
HEAD = """\
//! Datagrams with the answers of an independent model, made by tools/wire_cases.py: those that
//! spell no message, with the place of their fault, by its kind; those that spell one, with the
//! message's shortest spelling; and those that are the shortest spelling of theirs."""
# the width up to which rt fmt keeps a tuple on one line
_ROW_WIDTH = 60


_MESSAGES = {0xA0: "Get", 0xA1: "GetNext", 0xA2: "Response", 0xA3: "Set"}
_OF_MESSAGE, _OF_PDU = ("version", "community", "PDU"), (
    "request-id",
    "error-status",
    "error-index",
    "list of bindings",
)


def _elements(octets: bytes, at: int, end: int) -> Iterator[tuple[int, int, int, int]]:
    """The tag, the first octet, the first of the content and the end of each element, whatever its length says."""
    while at + 1 < end:
        size, content = octets[at + 1], at + 2
        if size > 128:
            digits = octets[content : content + size - 128]
            size, content = int.from_bytes(digits, "big"), content + len(digits)
        after = min(content + size, end)
        yield octets[at], at, content, after
        at = after


def _around(octets: bytes, place: int) -> tuple[str, str]:
    """The kind of message, and the element around a place."""
    kind, found = "message", "outermost element"
    for _, _, content, after in _elements(octets, 0, len(octets)):
        for name, (tag, first, inner, last) in zip(_OF_MESSAGE, _elements(octets, content, after)):
            found = name if first <= place else found
            if name != "PDU":
                continue
            kind = _MESSAGES.get(tag, kind)
            for name, (_, first, inner, last) in zip(_OF_PDU, _elements(octets, inner, last)):
                found = name if first <= place else found
                if name != _OF_PDU[-1]:
                    continue
                for number, (_, first, inner, last) in enumerate(_elements(octets, inner, last), 1):
                    found = f"binding {number}" if first <= place else found
                    for name, (_, first, _, _) in zip(("name", "value"), _elements(octets, inner, last)):
                        found = f"{name} of binding {number}" if first <= place else found
        break
    return kind, found


def _bindings_of(octets: bytes) -> int:
    """How many bindings a message has."""
    [message] = _elements(octets, 0, len(octets))
    *_, pdu = _elements(octets, *message[2:])
    *_, listed = _elements(octets, *pdu[2:])
    return len(list(_elements(octets, *listed[2:])))


def _fault_words(case: _Case) -> str:
    kind, found = _around(bytes.fromhex(case["octets"]), case["place"])
    return f"a {kind} with a fault in {found if found.startswith('binding') else 'the ' + found}"


def _is_shortest(case: _Case) -> bool:
    return bool(case["canonical"] == case["octets"])


def _message_words(case: _Case) -> str:
    octets = bytes.fromhex(case["octets"])
    count = _bindings_of(octets)
    kind, _ = _around(octets, 0)
    bound = f"{count} binding{'s' if count != 1 else ''}"
    return f"a {kind} of {bound}, {'in' if _is_shortest(case) else 'not in'} its shortest spelling"


def _literal(digits: str) -> str:
    return 'b"' + "".join(f"\\x{digits[i:i + 2]}" for i in range(0, len(digits), 2)) + '"'


def _print_row(words: str, *row: str) -> None:
    print(f"    // {words}")
    if len(row) == 1:
        print(f"    {row[0]},")
        return
    line = ", ".join(row)
    if len(line) <= _ROW_WIDTH:
        print(f"    ({line}),")
        return
    print("    (")
    for field in row:
        print(f"        {field},")
    print("    ),")


def _tables(name: str, row_type: str, rows: Sequence[tuple[str, ...]]) -> None:
    for first in range(0, len(rows), _CHUNK):
        chunk = rows[first : first + _CHUNK]
        print()
        print(f"pub static {name}_{first // _CHUNK + 1}: [{row_type}; {len(chunk)}] = [")
        for row in chunk:
            _print_row(*row)
        print("];")


def main() -> None:
    parser = argparse.ArgumentParser(description=__doc__, formatter_class=argparse.RawDescriptionHelpFormatter)
    parser.add_argument("cases", type=pathlib.Path, metavar="CASES.jsonl", help="a case a line")
    cases = [json.loads(line) for line in parser.parse_args().cases.read_text(encoding="utf-8").splitlines()]
    kept = [case for case in cases if len(case["octets"]) <= 2 * _LONGEST]
    faulty = [case for case in kept if "fault" in case]
    # those whose canonical octets differ come first
    spelled = sorted((case for case in kept if "canonical" in case), key=_is_shortest)[:_MOST_SPELLED]
    longer = [case for case in spelled if not _is_shortest(case)]
    shortest = [case for case in spelled if _is_shortest(case)]
    print(HEAD)
    for fault, kind in enumerate(_KINDS):
        _tables(
            kind,
            "(&[u8], usize)",
            [
                (_fault_words(case), _literal(case["octets"]), str(case["place"]))
                for case in faulty
                if int(case["fault"]) == fault
            ],
        )
    _tables(
        "SPELLED",
        "(&[u8], &[u8])",
        [(_message_words(case), _literal(case["octets"]), _literal(case["canonical"])) for case in longer],
    )
    _tables("SHORTEST", "&[u8]", [(_message_words(case), _literal(case["octets"])) for case in shortest])


if __name__ == "__main__":
    main()
