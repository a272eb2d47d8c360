"""What a sign lacks for a text, in the words of `signtool check`."""

import re
import subprocess

MOST_TEXT = 512
_WAIT = 2.0  # seconds for a call of the program
FAULT = re.compile(r"^fault (\d+) at (\d+)$", re.MULTILINE)
# a bracket that is doubled, a tag, or another octet; a bracket that nothing closes or opens is none of them
_PIECE = re.compile(rb"\[\[|\]\]|\[[^\]]*\]|[^\[\]]", re.DOTALL)
_SAID = re.compile(r"^(.*) at octet \d+(?:: (.*))?$", re.MULTILINE)


def _is_plain(octet: int) -> bool:
    """Whether an octet can stand in a word of a command line."""
    return 0 < octet < 128


def spelled(text: bytes) -> tuple[bytes, list[int]]:
    """The text for a command line, which takes no octet above 127 and no 0, and for each of its octets where it stood.
    A character by its number is the same to a sign; within a tag such an octet is a fault, whatever it is, and so is
    all that follows a bracket without another."""
    made, places, at = b"", list[int](), 0
    while found := _PIECE.match(text, at):
        piece = found[0] if len(found[0]) > 1 or _is_plain(found[0][0]) else b"[hc%X]" % found[0][0]
        made, places, at = made + plain(piece), places + [at] * len(piece), found.end()
    return made + plain(text[at:]), places + list(range(at, len(text) + 1))


def plain(octets: bytes) -> bytes:
    """The octets that can stand in a word, and a question mark for each that cannot."""
    return bytes(octet if _is_plain(octet) else ord("?") for octet in octets)


def lack(program: str, description: bytes | None, text: bytes, code: int, at: int) -> str:
    """Why a text has this fault at this octet: what the program says, if it finds the same one; else nothing."""
    word, places = spelled(text)
    if len(word) > MOST_TEXT:
        return ""
    call = [program.encode(), b"check", *([b"--sign"] if description is not None else []), b"--", word]
    try:
        ended = subprocess.run(call, input=description or b"", capture_output=True, timeout=_WAIT, check=False)
    except (OSError, subprocess.TimeoutExpired):
        return ""
    found, said = FAULT.search(ended.stdout.decode("latin-1")), _SAID.search(ended.stderr.decode("latin-1"))
    if found is None or said is None or int(found[2]) >= len(places):
        return ""
    return (said[2] or said[1]) if (int(found[1]), places[int(found[2])]) == (code, at) else ""
