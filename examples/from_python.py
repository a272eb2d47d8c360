#!/usr/bin/env python3
"""The sign and the central system from Python, by ctypes: it publishes a text and prints the rows of its pages.

    examples/from_python.py [--library examples/out/shared/libwisangub.so] DESCRIPTION TEXT

libwisangub.so has the functions of include/wisangub.h under their names. An enum is 32 bits, as an argument and as an
answer; a buffer goes with its room. Structs are declared field by field, and their sizes and offsets are those of the
header. What the library answers but DONE and NOTHING is raised.
"""

from __future__ import annotations

import argparse
import ctypes
import pathlib
import sys
from ctypes import POINTER, byref, c_char_p, c_int64, c_size_t, c_uint8, c_uint16, c_uint32, c_uint64, c_void_p

VERSION = "1.0.0"
DATAGRAM = 1472
DONE, NOTHING, TOO_SMALL, MEMORY, FAULT, NULL, BUSY, USED_UP, RANGE, STATE = range(10)
LOOK = 0
PAGE_HEAD = 3
MOST_SECONDS = 60
MOST_WORDS = 256


class Sign(ctypes.Structure):
    _fields_ = [("at", c_void_p)]


class Centre(ctypes.Structure):
    _fields_ = [("at", c_void_p)]


class TextFault(ctypes.Structure):
    _fields_ = [("place", c_size_t), ("code", c_uint8)]


class Cause(ctypes.Structure):
    _fields_ = [
        *((name, c_size_t) for name in ("line", "word", "row", "place")),
        *((name, c_uint32) for name in ("least", "most")),
        *((name, c_uint8) for name in ("kind", "wanted", "number", "code")),
    ]


class TextCause(ctypes.Structure):
    _fields_ = [("place", c_size_t), ("count", c_size_t), ("character", c_uint16)]
    _fields_ += [(name, c_uint8) for name in ("font", "code", "lack")]


class Shown(ctypes.Structure):
    _fields_ = [("minutes", c_uint32), ("number", c_uint16), ("checksum", c_uint16), ("memory", c_uint8)]
    _fields_ += [(name, c_uint8) for name in ("mode", "priority", "beacon", "pixel")]


class Code(ctypes.Structure):
    _fields_ = [
        *((name, c_uint16) for name in ("minutes", "number", "checksum")),
        *((name, c_uint8) for name in ("priority", "memory")),
        ("address", c_uint8 * 4),
    ]


class Value(ctypes.Structure):
    _fields_ = [("number", c_int64), ("type", c_uint8)]


class Access(ctypes.Structure):
    _fields_ = [("least", c_int64), ("most", c_int64), ("writes", c_uint8)]


class Entry(ctypes.Structure):
    _fields_ = [("status", c_int64), ("number", c_uint32), ("outcome", c_uint8), ("code", Code)]


class Status(ctypes.Structure):
    _fields_ = [("value", c_int64), ("entries", c_size_t)]
    _fields_ += [(name, c_uint8) for name in ("busy", "last", "step", "why")]


class Page(ctypes.Structure):
    _fields_ = [("count", c_size_t)] + [(name, c_uint8) for name in ("on", "off", "background")]


SIGN, CENTRE, SIZE, BUFFER = POINTER(Sign), POINTER(Centre), POINTER(c_size_t), c_void_p
ARGUMENTS = {
    "sign_new": [SIGN, c_char_p, c_size_t, POINTER(c_uint32), SIZE],
    "description_cause": [c_char_p, c_size_t, POINTER(Cause), BUFFER, c_size_t, SIZE],
    "sign_save": [SIGN, BUFFER, c_size_t, SIZE],
    "sign_save_most": [SIGN, SIZE],
    "sign_restore": [SIGN, c_char_p, c_size_t, BUFFER, c_size_t, POINTER(c_uint32), SIZE],
    "sign_restore_objects": [SIGN, BUFFER, c_size_t, SIZE],
    "sign_receive": [SIGN, BUFFER, c_size_t, BUFFER, c_size_t, SIZE],
    "sign_tick": [SIGN],
    "sign_ticks": [SIGN, c_uint32],
    "sign_power_lost": [SIGN],
    "sign_power_back": [SIGN, c_uint32],
    "sign_heard": [SIGN],
    "sign_shown": [SIGN, POINTER(Shown)],
    "sign_changes": [SIGN, POINTER(c_uint64)],
    "sign_ends": [SIGN, POINTER(c_uint64)],
    "sign_page_times": [SIGN, c_size_t, POINTER(Page)],
    "sign_due": [SIGN, c_uint64, c_uint64, POINTER(c_uint64)],
    "sign_matrix": [SIGN, POINTER(c_uint16), POINTER(c_uint16)],
    "sign_text": [SIGN, BUFFER, c_size_t, SIZE],
    "sign_reader": [SIGN, BUFFER, c_size_t, SIZE],
    "sign_writer": [SIGN, BUFFER, c_size_t, SIZE],
    "sign_check": [SIGN, c_char_p, c_size_t, SIZE, POINTER(TextFault)],
    "sign_text_cause": [SIGN, c_char_p, c_size_t, POINTER(TextCause), BUFFER, c_size_t, SIZE],
    "sign_pages": [SIGN, c_uint32, BUFFER, c_size_t, SIZE],
    "sign_page_row": [SIGN, c_size_t, c_uint16, c_uint32, BUFFER, c_size_t, SIZE],
    "sign_text_pages": [SIGN, c_char_p, c_size_t, c_uint32, BUFFER, c_size_t, SIZE, POINTER(TextFault)],
    "sign_show_fonts": [SIGN],
    "sign_publish": [SIGN, BUFFER, c_size_t, POINTER(Value), BUFFER, c_size_t, POINTER(Access)],
    "sign_withdraw": [SIGN, BUFFER, c_size_t],
    "sign_object": [SIGN, BUFFER, c_size_t, POINTER(Value), BUFFER, c_size_t, SIZE],
    "sign_taken": [SIGN, BUFFER, c_size_t, SIZE, POINTER(Value), BUFFER, c_size_t, SIZE],
    "row_bits": [BUFFER, c_size_t, BUFFER, c_size_t, SIZE],
    "crc": [c_char_p, c_size_t, c_uint8, c_uint8, POINTER(c_uint16)],
    "message_code": [c_uint32, POINTER(Code), BUFFER, c_size_t, SIZE],
    "activation_code": [c_uint32, POINTER(Code), BUFFER, c_size_t, SIZE],
    "sign_free": [SIGN],
    "centre_new": [CENTRE, c_char_p, c_size_t, c_uint32, c_uint32],
    "centre_save": [CENTRE, BUFFER, c_size_t, SIZE],
    "centre_save_size": [CENTRE, SIZE],
    "centre_restore": [CENTRE, c_char_p, c_size_t, c_uint32, BUFFER, c_size_t, SIZE],
    "command_cause": [c_char_p, c_size_t, POINTER(Cause), BUFFER, c_size_t, SIZE],
    "centre_command": [CENTRE, c_char_p, c_size_t, BUFFER, c_size_t, SIZE],
    "centre_receive": [CENTRE, BUFFER, c_size_t, BUFFER, c_size_t, SIZE],
    "centre_tick": [CENTRE, BUFFER, c_size_t, SIZE],
    "centre_restart": [CENTRE],
    "centre_status": [CENTRE, POINTER(Status)],
    "centre_entry": [CENTRE, c_size_t, POINTER(Entry)],
    "centre_free": [CENTRE],
}


class Refused(Exception):
    """A call answered something else than that it is done."""


def opened(path: pathlib.Path) -> ctypes.CDLL:
    """The library, with what its functions take and answer, where it is of this version."""
    library = ctypes.CDLL(str(path.absolute()))
    for name, arguments in ARGUMENTS.items():
        function = getattr(library, f"wisangub_{name}")
        function.argtypes, function.restype = arguments, None if name.endswith("_free") else c_uint32
    library.wisangub_version.restype = c_char_p
    found = library.wisangub_version().decode("ascii")
    if found != VERSION:
        raise Refused(f"{path} is of version {found}, and this of {VERSION}")
    return library


def done(answer: int, what: str) -> bool:
    """Whether there is something in the buffer."""
    if answer not in (DONE, NOTHING):
        raise Refused(f"{what}: answer {answer}")
    return answer == DONE


def why_refused(library: ctypes.CDLL, description: bytes) -> str:
    """Why a description is refused, in words."""
    words, size, cause = ctypes.create_string_buffer(MOST_WORDS), c_size_t(), Cause()
    library.wisangub_description_cause(description, len(description), byref(cause), words, MOST_WORDS, byref(size))
    return words.raw[: size.value].decode("ascii")


class Both:
    """A sign and its central system in one process."""

    def __init__(self, library: ctypes.CDLL, description: bytes) -> None:
        self.library, self.sign, self.centre, self.size = library, Sign(), Centre(), c_size_t()
        self.request, self.reply = (c_uint8 * DATAGRAM)(), (c_uint8 * DATAGRAM)()
        first, line = c_uint32(), c_size_t()
        answer = library.wisangub_sign_new(byref(self.sign), description, len(description), byref(first), byref(line))
        done(answer, f"the description, line {line.value}: {why_refused(library, description)}")
        done(library.wisangub_sign_writer(byref(self.sign), self.request, DATAGRAM, byref(self.size)), "the community")
        community, order = bytes(self.request[: self.size.value]), b"\norder swapped" in description
        answer = library.wisangub_centre_new(byref(self.centre), community, len(community), order, first.value)
        done(answer, "the central system")

    def __enter__(self) -> Both:
        return self

    def __exit__(self, *_: object) -> None:
        self.library.wisangub_centre_free(byref(self.centre))
        self.library.wisangub_sign_free(byref(self.sign))

    def hand_over(self, answer: int) -> None:
        """Hands requests to the sign and replies to the central system, until nothing is sent."""
        library, size = self.library, self.size
        while done(answer, "the central system"):
            request, room = self.request, DATAGRAM
            answer = library.wisangub_sign_receive(byref(self.sign), request, size.value, self.reply, room, byref(size))
            if not done(answer, "the sign"):
                return
            answer = library.wisangub_centre_receive(
                byref(self.centre), self.reply, size.value, request, room, byref(size)
            )

    def publish(self, text: bytes) -> None:
        """Has the text published in row 1, with a second between each poll."""
        fault, pages, status = TextFault(), c_size_t(), Status()
        library, sign, centre = self.library, byref(self.sign), byref(self.centre)
        answer = library.wisangub_sign_check(sign, text, len(text), byref(pages), byref(fault))
        done(answer, f"the text has fault {fault.code} at octet {fault.place}")
        line = f"publish 3 1 {text.hex() or '-'} - 0 0 200 65535 255 127.0.0.1".encode("ascii")
        self.hand_over(
            library.wisangub_centre_command(centre, line, len(line), self.request, DATAGRAM, byref(self.size))
        )
        for _ in range(MOST_SECONDS):
            done(library.wisangub_centre_status(centre, byref(status)), "the status")
            if not status.busy:
                break
            done(library.wisangub_sign_tick(sign), "a second")
            self.hand_over(library.wisangub_centre_tick(centre, self.request, DATAGRAM, byref(self.size)))
        if status.busy or status.step:
            raise Refused(f"it failed at step {status.step}")

    def pages(self) -> tuple[int, bytes]:
        """The columns of the matrix, and the looks of the pages that the sign shows."""
        width, height, sign = c_uint16(), c_uint16(), byref(self.sign)
        done(self.library.wisangub_sign_matrix(sign, byref(width), byref(height)), "the matrix")
        if self.library.wisangub_sign_pages(sign, LOOK, None, 0, byref(self.size)) != TOO_SMALL:
            raise Refused("there is no memory for the pages")
        room = self.size.value
        looks = (c_uint8 * room)()
        done(self.library.wisangub_sign_pages(sign, LOOK, looks, room, byref(self.size)), "the pages")
        return width.value, bytes(looks)

    def rows(self) -> list[str]:
        """The pages, each a line `page ON OFF` and its rows, as a driver of lamps has them: a lamp a character."""
        width, looks = self.pages()
        height = c_uint16()
        done(self.library.wisangub_sign_matrix(byref(self.sign), byref(c_uint16()), byref(height)), "the matrix")
        page, bits, found = PAGE_HEAD + width * height.value, (c_uint8 * 32)(), []
        for start in range(0, len(looks), page):
            found.append(f"page {looks[start]} {looks[start + 1]}")
            for row in range(start + PAGE_HEAD, start + page, width):
                answer = self.library.wisangub_row_bits(looks[row : row + width], width, bits, 32, byref(self.size))
                done(answer, "a row")
                digits = "".join(f"{octet:08b}" for octet in bits[: self.size.value])
                found.append(digits[:width].replace("0", ".").replace("1", "*"))
        return found


def main() -> int:
    parser = argparse.ArgumentParser(description=__doc__, formatter_class=argparse.RawDescriptionHelpFormatter)
    here = pathlib.Path(__file__).resolve().parent
    parser.add_argument(
        "--library", type=pathlib.Path, default=here / "out/shared/libwisangub.so", help="the shared library"
    )
    parser.add_argument("description", type=pathlib.Path, metavar="DESCRIPTION", help="a file that describes the sign")
    parser.add_argument("text", metavar="TEXT", help="what is published")
    asked = parser.parse_args()
    try:
        with Both(opened(asked.library), asked.description.read_bytes()) as both:
            both.publish(asked.text.encode("latin-1"))
            print("\n".join(both.rows()))
    except (Refused, OSError) as fault:
        print(fault, file=sys.stderr)
        return 1
    return 0


if __name__ == "__main__":
    sys.exit(main())
