"""An operator's command with readable texts, and the words of how it ended."""

import re

from wisangub.refusal import Refusal
from wisangub.snmp.mib import Mib
from wisangub.snmp.names import status_word

WORD = re.compile(r'"((?:[^"\\]|\\.)*)"(?= |$)|([^ "]+)(?= |$)')
_FIELDS = ("MEMORY", "NUMBER", "TEXT", "OWNER", "BEACON", "PIXEL", "RUN", "MINUTES", "PRIORITY", "ADDRESS")


def _octets_of(text: str, name: str) -> str:
    """The digits of a text's octets, as in ISO 8859-1."""
    for place, character in enumerate(text, 1):
        if ord(character) > 255:
            raise Refusal(f"{name}: character {place}, U+{ord(character):04X}, is none of U+0000 to U+00FF")
    return text.encode("latin-1").hex() or "-"


def _words_of(line: str) -> list[tuple[str, bool]]:
    """The words of a line and whether they stood in quotes, where \\" and \\\\ are a quote and a backslash."""
    words, at = [], 0
    while at < len(line):
        if line[at] == " ":
            at += 1
            continue
        found = WORD.match(line, at)
        if found is None:
            raise Refusal(f"character {at + 1}: a quote that is not closed, or one within a word")
        quoted = found[1] is not None
        words.append((re.sub(r"\\(.)", r"\1", found[1]) if quoted else found[2], quoted))
        at = found.end()
    return words


def published(line: str) -> str:
    """The line `publish ..` of a line `publish-text ..`, which has the text and the owner as they are read; a `-`
    without quotes is none."""
    words = _words_of(line)[1:]
    if len(words) != len(_FIELDS):
        raise Refusal(f"publish-text wants {len(_FIELDS)} words, {' '.join(_FIELDS)}, and not {len(words)}")
    made = []
    for name, (word, quoted) in zip(_FIELDS, words):
        is_text = name in ("TEXT", "OWNER")
        made.append(word if not is_text or word == "-" and not quoted else _octets_of(word, name))
    return " ".join(["publish", *made])


def ended(mib: Mib, line: str) -> str:
    """A line of the centre's status, its numbers of causes and statuses with their words."""
    causes, rows = mib.words.get("dmsActivateMsgError", {}), mib.words.get("dmsMessageStatus", {})

    def worded(found: re.Match[str]) -> str:
        """The number with its word behind it."""
        number = int(found[2])
        word = (
            causes.get(number)
            if found[1] == "cause"
            else rows.get(number)
            if found[1] == "has status"
            else status_word(number)
        )
        return f"{found[0]}, {word}" if word and word != found[2] else found[0]

    if line.startswith("last "):
        return re.sub(r"\b(cause|has status|error-status) ([0-9]+)\b", worded, line)
    return re.sub(r" (refused) ([0-9]+)$", worded, line) if line.startswith("ledger ") else line
