"""What a command has a sign show, as far as the database knows it."""

from .connection import Database
from .queries import row_text
from .values import text_or_none


def text_of(database: Database, sign: int, line: str) -> bytes:
    """The text of a publication, or of the row that is shown as it was last read; none of any other command."""
    words = line.split(" ")
    try:
        if words[0] == "publish":
            return bytes.fromhex(words[3].replace("-", ""))
        if words[0] == "activate":
            code = bytes.fromhex(words[1])
            return _row_text(database, sign, code[3], int.from_bytes(code[4:6], "big"))
    except (ValueError, IndexError):
        pass  # the centre refuses it
    return b""


def _row_text(database: Database, sign: int, memory: int, number: int) -> bytes:
    rows = database.run("SELECT held FROM messages WHERE sign = ? AND memory = ? AND number = ?", sign, memory, number)
    held = text_or_none(rows[0][0]) if rows else None
    return b"" if held is None else row_text(held)
