"""The description of a sign, as a front end hands it to a co-process."""

import re

from wisangub.refusal import Refusal, reason

from .stands import file_of

# the sign that the program has where it is handed no description (docs/PROFILE.md, "The bench sign")
with open(file_of("signs/bench.sign"), "rb") as _file:
    BENCH = _file.read()
FIRST = re.compile(rb"^first ([0-9]{1,10})(?=\r?$)", re.MULTILINE)
_COMMUNITIES = re.compile(rb"^communities ([^ \n]+) ([^ \n]+?)\r?$", re.MULTILINE)


def read(path: str | None) -> bytes | None:
    """The lines up to and with the first `end` of a file; None for the bench sign."""
    if path is None:
        return None
    try:
        with open(path, "rb") as file:
            text = file.read(1 << 21)
    except OSError as fault:
        raise Refusal(reason(fault)) from fault
    ended = re.search(rb"^end(\r?\n|\Z)", text, re.MULTILINE)
    if ended is None:
        raise Refusal(f"{path}: line {len(text.splitlines()) + 1}: there is no line `end`")
    after = [line for line in text[ended.end() :].split(b"\n") if line.rstrip(b"\r") and not line.startswith(b"#")]
    if after:
        raise Refusal(f"{path}: after its line `end` there is more: no description of a sign")
    return text[: ended.end()].rstrip(b"\r\n") + b"\n"


def unseen(text: bytes, answer: bytes) -> str:
    """What nobody sees in the line of a description that an answer `line N` refuses: words to put after it."""
    found = re.fullmatch(rb"line ([0-9]+)", answer)
    lines = text.split(b"\n")
    if found is None or not 1 <= int(found[1]) <= len(lines):
        return ""
    line = lines[int(found[1]) - 1]
    if line.startswith(b"\xef\xbb\xbf"):
        return "; it begins with a byte order mark, the octets EF BB BF"
    return f"; its octet {line.index(9) + 1} is a tab, and words have a space between them" if 9 in line else ""


def digest(text: bytes | None) -> str:
    """The SHA-256 of a description; the bench sign has the word `bench`."""
    if text is None:
        return "bench"
    import hashlib  # takes as long as all else of a start over a short journal

    return hashlib.sha256(text).hexdigest()


def communities_of(text: bytes | None) -> tuple[bytes, bytes]:
    """Who reads, and who reads and writes."""
    found = _COMMUNITIES.search(BENCH if text is None else text)
    if found is None:
        raise Refusal("the description has no line `communities`")
    return found[1], found[2]


def first_of(text: bytes | None) -> int:
    """The number of the centre's first request; 1 where the description does not say it."""
    found = FIRST.search(BENCH if text is None else text)
    return int(found[1]) if found else 1


def with_first(text: bytes | None, first: int) -> bytes | None:
    """The description with another first number; the bench sign is described where it has to be."""
    if first == first_of(text):
        return text
    return FIRST.sub(b"first %d" % first, BENCH if text is None else text, count=1)
