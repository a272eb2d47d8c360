"""Why descriptions, texts and commands are refused: in the words of the program, and in numbers that say the same."""

from __future__ import annotations

import ctypes
import os
import random
import re
import subprocess
from dataclasses import dataclass
from types import ModuleType
from typing import Callable

from model import text
from trials import cause_rows
from trials.cause_cases import Cases

from .against_vectors import cases
from .languages import example
from .trial import PLAIN, SIGNS, Trial, described

DONE, NOTHING, TOO_SMALL = 0, 1, 2
_RANDOM, _RANDOM_SHORT = 600, 60  # descriptions, texts and commands that are changed
_ROOM = 256
_UNTOUCHED = 0xA5
_UNSEEN = re.compile(r"; its octet \d+ is a tab.*|; it begins with a byte order mark.*")
_FIELDS = ("line", "word", "row", "place", "least", "most", "kind", "wanted", "number", "code")
_LACKING = ("place", "count", "character", "font", "code", "lack")
_COMMANDS = (
    "publish 3 1 41 - 0 0 200 65535 255 192.0.2.1",
    "publish 4 2 5b6e705d 6d65 1 1 1 5 255 192.0.2.1",
    "blank 1 60 255 192.0.2.1",
    "activate 000a01070001000000000000",
)

Numbers = dict[str, int]
_WANTED = [
    (r"the word [a-z-]+", 1),
    (r"[a-z]+ or [a-z]+", 2),
    (r"the (first|second) community", 3),
    (r"a number from (?P<least>\d+) to (?P<most>\d+)", 4),
    (r"(a|an) [a-z]+ in hexadecimal", 5),
    (r"a version of four hexadecimal digits", 6),
    (r"an address, as 192\.0\.2\.1,", 7),
    (r"a code of 24 hexadecimal digits", 8),
]
_WHOLE: list[tuple[str, int, int, int]] = [
    (r"the text ends before its line `end`", 5, 0, 0),
    (r"a row, a font, a character or `end` is wanted", 6, 0, 0),
    (r"no command begins with this word", 6, 0, 0),
    (r"a permanent row stands before all fonts", 7, 0, 0),
    (r"a character stands after its font", 8, 0, 0),
    (r"bits that do not fit the picture", 9, 0, 0),
    (r"a character for the second time", 10, 0, 0),
    (r"more than 255 characters", 11, 0, 0),
    (r"no line may stand after `end`", 12, 0, 0),
    (r"the matrix (has no columns|is wider than 256)", 13, 1, 256),
    (r"the matrix (has no rows|is higher than 64)", 14, 1, 64),
    (r"there (is no font|are more than four fonts)", 15, 1, 4),
    (r"two fonts have the number (?P<number>\d+)", 16, 0, 0),
    (r"the default background (?P<number>\d+) is no colour", 17, 0, 9),
    (r"the default foreground (?P<number>\d+) is no colour", 18, 0, 9),
    (r"the default line justification (?P<number>\d+) is none", 19, 2, 4),
    (r"the default page justification (?P<number>\d+) is none", 20, 2, 4),
    (r"the default font (?P<number>\d+) is none of the face's", 21, 0, 0),
    (r"the first community has not 1 to 32 octets", 22, 1, 32),
    (r"the second community has not 1 to 32 octets", 23, 1, 32),
    (r"both communities are the same", 24, 0, 0),
    (r"there are more than 16 permanent rows", 25, 0, 16),
    (r"there are more than 64 changeable rows", 26, 0, 64),
    (r"there are more than 16 volatile rows", 27, 0, 16),
    (r"permanent row (?P<row>\d+): its text is longer than 512 octets", 28, 0, 512),
    (r"permanent row (?P<row>\d+): its owner is longer than 127 octets", 29, 0, 127),
    (r"permanent row (?P<row>\d+): its beacon is neither 0 nor 1", 30, 0, 1),
    (r"permanent row (?P<row>\d+): its pixel service is neither 0 nor 1", 31, 0, 1),
    (r"permanent row (?P<row>\d+): its priority is 0", 32, 1, 255),
    (r"permanent row (?P<row>\d+): the sign has no beacons", 33, 0, 0),
    (r"permanent row (?P<row>\d+): the sign has no pixel service", 34, 0, 0),
    (r"permanent row (?P<row>\d+): its text: (?P<fault>[a-z ]+) at octet (?P<place>\d+)", 35, 0, 0),
]
_FAULTS = {
    "unsupported tag": 3,
    "unsupported tag value": 4,
    "text too big": 5,
    "font not defined": 6,
    "character not defined": 7,
    "tag conflict": 11,
    "too many pages": 12,
    "another version of the font": 13,
}
_LACKS = [
    (r"character (?P<character>\d+) is not in font (?P<font>\d+)", 1),
    (r"the sign has no font (?P<font>\d+)", 2),
    (r"wider than the matrix by (?P<count>\d+) columns?", 3),
    (r"higher than the matrix by (?P<count>\d+) rows?", 4),
    (r"longer than a text may be by (?P<count>\d+) octets?", 5),
]


def _named(found: re.Match[str] | None, **more: int) -> Numbers:
    """The numbers that a pattern found, and more."""
    named = found.groupdict() if found else {}
    fault = named.pop("fault", None)
    code = {"code": _FAULTS[fault]} if fault else {}
    return {name: int(number) for name, number in named.items()} | code | more


def _of_word(place: int, said: str) -> Numbers:
    """What the words on a word say, in numbers."""
    for kind, pattern in ((1, r"the line ends where (.*) is wanted"), (3, r"(.*) is wanted")):
        found = re.fullmatch(pattern, said)
        if found and said != "no more words are wanted":
            for wanted, number in _WANTED:
                if (one := re.fullmatch(wanted, found[1])) is not None:
                    return _named(one, word=place, kind=kind, wanted=number)
    return {"word": place, "kind": 2 if said.startswith("two spaces") else 4}


def numbers(line: int, said: str) -> Numbers:
    """What the words of a cause say, in numbers."""
    if (found := re.fullmatch(r"word (\d+): (.*)", said)) is not None:
        return {"line": line, **_of_word(int(found[1]), found[2])}
    for pattern, kind, least, most in _WHOLE:
        if (found := re.fullmatch(pattern, said)) is not None:
            at = {"word": 1} if kind == 6 else {}
            return {"line": line, **_named(found, kind=kind, least=least, most=most, **at)}
    raise AssertionError(said)


def lacking(said: str) -> Numbers:
    """What the words on a text that can not be shown say, in numbers."""
    found = re.fullmatch(r"(?P<fault>[a-z ]+) at octet (?P<place>\d+)(: (?P<rest>.*))?", said)
    assert found is not None, said
    known = {"code": _FAULTS[found["fault"]], "place": int(found["place"])}
    for pattern, number in _LACKS:
        if (one := re.fullmatch(pattern, found["rest"] or "")) is not None:
            return known | _named(one, lack=number)
    return known


@dataclass
class Calls:
    """The library's calls, each with a buffer that has just the room that it asked for."""

    module: ModuleType
    library: ctypes.CDLL

    def told(self, call: Callable[..., int], cause: ctypes.Structure) -> tuple[int, str]:
        """The answer and the words; what has no room is told its size, and nothing else changes."""
        size, before = ctypes.c_size_t(), bytes(cause)
        answer = call(ctypes.byref(cause), None, 0, ctypes.byref(size))
        if answer != TOO_SMALL:
            return answer, ""
        room = size.value
        words = (ctypes.c_uint8 * (room + 1))(*[_UNTOUCHED] * (room + 1))
        short = call(ctypes.byref(cause), words, room - 1, ctypes.byref(size))
        assert (short, size.value, bytes(cause)) == (TOO_SMALL, room, before) and set(words) == {_UNTOUCHED}
        answer = call(ctypes.byref(cause), words, room, ctypes.byref(size))
        assert size.value == room and words[room] == _UNTOUCHED
        return answer, bytes(words[:room]).decode("ascii")

    def description(self, octets: bytes) -> tuple[int, str, Numbers]:
        cause, function = self.module.Cause(), self.library.wisangub_description_cause
        answer, words = self.told(lambda *rest: function(octets, len(octets), *rest), cause)
        return answer, words, {name: getattr(cause, name) for name in _FIELDS}

    def command(self, octets: bytes) -> tuple[int, str, Numbers]:
        cause, function = self.module.Cause(), self.library.wisangub_command_cause
        answer, words = self.told(lambda *rest: function(octets, len(octets), *rest), cause)
        return answer, words, {name: getattr(cause, name) for name in _FIELDS}

    def text(self, sign: ctypes.Structure, octets: bytes) -> tuple[int, str, Numbers]:
        cause, function = self.module.TextCause(), self.library.wisangub_sign_text_cause
        answer, words = self.told(lambda *rest: function(ctypes.byref(sign), octets, len(octets), *rest), cause)
        return answer, words, {name: getattr(cause, name) for name in _LACKING}


def _said(trial: Trial, words: list[str], octets: bytes) -> tuple[str, str]:
    """What the program prints, and what it says, up to the first line of each."""
    call = [str(trial.program), *words]
    ended = subprocess.run(call, input=octets, capture_output=True, timeout=trial.most(60), check=False)
    output, errors = (found.decode("latin-1").partition("\n")[0] for found in (ended.stdout, ended.stderr))
    return output, _UNSEEN.sub("", errors)


def _same(trial: Trial, name: str, found: tuple[int, str, Numbers], said: str, known: Numbers) -> None:
    """The library's answer is that there is this cause, or that there is none."""
    answer, words, told = found
    wanted = {**{field: 0 for field in told}, **known}
    trial.same(f"{name}: words", (answer, words), (DONE, said) if said else (NOTHING, ""))
    trial.same(f"{name}: numbers", told, wanted)


def _descriptions(trial: Trial, calls: Calls, count: int) -> None:
    rows = [octets for octets, _, _ in cause_rows.described()]
    random_ones = Cases(trial.chance.randrange(2**32))
    rows += [random_ones.changed(random_ones.description()) for _ in range(count)]
    for at, octets in enumerate(rows):
        output, errors = _said(trial, ["check", "A", "--sign"], octets)
        found = re.fullmatch(r"line (\d+): (.*)", errors) if output.startswith("line ") else None
        line, said = (int(found[1]), found[2]) if found else (0, "")
        known = numbers(line, said) if found else {}
        _same(trial, f"description {at}", calls.description(octets), said, known)


def _changed(chance: random.Random, octets: bytes) -> bytes:
    """A text with an octet less, more or changed, or in large."""
    at = chance.randrange(len(octets) + 1)
    more = bytes([chance.choice(b"[]A1,\x7f\x80\xff9fnp")])
    return chance.choice([octets[:at] + octets[at + 1 :], octets[:at] + more + octets[at:], octets * 9])


def _texts(trial: Trial, calls: Calls, count: int) -> None:
    """Texts on the bench sign and on two others. The program takes a text as a word, so ASCII alone and no zero."""
    some = [case["text"].encode("latin-1") for case in cases("texts")]
    for name, described_as in [("bench", text.BENCH), *((sign, described(sign).encode()) for sign in SIGNS)]:
        sign, first, line = calls.module.Sign(), ctypes.c_uint32(), ctypes.c_size_t()
        made = (described_as, len(described_as), ctypes.byref(first), ctypes.byref(line))
        trial.same(f"{name} is made", calls.library.wisangub_sign_new(ctypes.byref(sign), *made), DONE)
        chosen = trial.chance.sample(some, min(len(some), count)) if trial.is_short() else some
        tried = [*chosen, *(_changed(trial.chance, trial.chance.choice(some)) for _ in range(count))]
        for octets in (one for one in tried if one.isascii() and 0 not in one):
            output, errors = _said(trial, ["check", "--sign", "--", octets.decode("ascii")], described_as)
            said = errors if output.startswith("fault ") else ""
            _same(trial, f"{name}: {octets[:60]!r}", calls.text(sign, octets), said, lacking(said) if said else {})
        calls.library.wisangub_sign_free(ctypes.byref(sign))


def _commands(trial: Trial, calls: Calls, count: int) -> None:
    """Lines as commands; the program says why of a script with such a line, which may begin with other words too."""
    changes = Cases(trial.chance.randrange(2**32))
    lines = [line.decode("latin-1") for line, _ in cause_rows.EVENTS]
    lines += [changes.line(trial.chance.choice(_COMMANDS)) for _ in range(count)] + list(_COMMANDS)
    for line in (one for one in lines if "\r" not in one):
        octets = line.encode("latin-1")
        _, errors = _said(trial, ["replay"], b"bench\n" + octets + b"\n")
        found = re.fullmatch(r"line 2: (.*)", errors)
        said = found[1] if found else ""
        if line.split(" ")[0] not in ("publish", "blank", "activate"):
            said = "no command begins with this word"
        _same(trial, f"command {line!r}", calls.command(octets), said, numbers(1, said) if said else {})


def run(trial: Trial) -> None:
    if not os.access(trial.program, os.X_OK):
        trial.skip("causes beside the program's", f"there is none at {trial.program}")
        return
    module = example()
    calls = Calls(module, module.opened(trial.folder / PLAIN.folder / "shared/libwisangub.so"))
    count = _RANDOM_SHORT if trial.is_short() else _RANDOM
    for part in (_descriptions, _texts, _commands):
        if trial.left() > 0:
            part(trial, calls, count)
