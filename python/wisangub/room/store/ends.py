"""The words of a command's line, and of the audit's, as the indexes of them have them: each end of each (039_words.sql
and 040_audit_words.sql have the same of PostgreSQL)."""

import re

from wisangub.room.plain import NOTHING, plain_of

SHORTEST, LONGEST = 2, 20  # characters of an end of a word
WORD = re.compile(r"[^\x00-/:-@\[-`{-\x7f]+")
ANY = "0"  # in the place of its words where a line of the audit may say any: no end has one character
_MOST = 8000  # characters of a line of the audit whose words are looked for
_COMMAND = re.compile(r"(.*): ((?:publish|blank|activate) .*)", re.DOTALL)
_WHOLE = re.compile(  # a command as pages say it in words
    r"(publish( [0-9]{1,9}){2}( (-|([0-9A-Fa-f]{2})+)){2}( [0-9]{1,9}){5}|blank( [0-9]{1,9}){3}) [0-9.]+"
    r"|activate [0-9A-Fa-f]{24}"
)


def _text_of(line: str) -> str:
    """What may be looked for in a line, but for words of the pages: the row, and the text with its tags and without."""
    parts = line.split(" ")
    try:
        if parts[0] == "publish" and len(parts) > 3:
            octets = bytes.fromhex(parts[3].replace("-", ""))
            plain = plain_of(octets)
            return f"{parts[1]} {parts[2]} {octets.decode('latin-1')} {plain if plain != NOTHING else ''}"
        if parts[0] == "blank" and len(parts) > 1:
            return parts[1]
        if parts[0] == "activate" and len(parts) > 1:
            code = bytes.fromhex(parts[1])
            return f"{code[3]} {int.from_bytes(code[4:6], 'big')}"
    except (ValueError, IndexError):
        pass  # the centre refuses it
    return ""


def _ends_of(said: str) -> str:
    """The ends of the words of what is said."""
    ends = {word[at : at + LONGEST] for word in WORD.findall(said.lower()) for at in range(len(word) - SHORTEST + 1)}
    return " ".join(sorted(ends)).encode("utf-8", "replace").decode()


def command_words(line: str) -> str:
    """The ends of a line's words, as the index has them."""
    return _ends_of(_text_of(line))


def _numbers_of(line: str) -> str:
    """The numbers that pages say of a command beside its row: priorities, and minutes as hours and days."""
    if line.startswith("activate "):
        code = bytes.fromhex(line.split(" ")[1])
        minutes, priorities = int.from_bytes(code[:2], "big"), str(code[2])
    else:
        *_, run_priority, said, priority, _ = line.split(" ")
        minutes, priorities = int(said), f"{run_priority} {priority}"
    return f"{priorities} {minutes} {minutes // 60} {minutes % 60} {minutes // 1440} {minutes // 60 % 24}"


def audit_words(what: str) -> str:
    """The ends of the words of a line of the audit, of a command's as pages say it in words."""
    found = _COMMAND.fullmatch(what)
    if len(what) > _MOST or found and not _WHOLE.fullmatch(found[2]):
        return ANY
    return _ends_of(f"{found[1]} {_text_of(found[2])} {_numbers_of(found[2])}" if found else what)
