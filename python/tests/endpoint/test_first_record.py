"""A journal whose first record is not whole: nothing says what it is of, and a sign may begin anew."""

import os
import pathlib
import tempfile

from wisangub.endpoint import records
from wisangub.endpoint.journal import Journal

from .ends import SIGN
from .form1 import older
from .test_journal import HEAD, LINES, NOW, kept, refused

MOMENT = (NOW.start(), NOW.clock())


def test_a_first_record_that_is_damaged_is_accepted_for_a_new_journal() -> None:
    """As a sign's alone, of either form, and of no state; what is no journal is refused all the same."""
    for text in (
        records.records([HEAD._replace(form=2).line(), *MOMENT, *LINES]),
        older([HEAD.line(), *MOMENT, *LINES]),
    ):
        for at in (0, 9, text.index(b"\n")):
            changed = text[:at] + bytes([text[at] ^ 1]) + text[at + 1 :]
            with tempfile.TemporaryDirectory() as folder:
                path = pathlib.Path(folder, "journal")
                path.write_bytes(changed)
                words = refused(lambda: kept(str(path)))
                assert "damaged at octet 0" in words and "--accept-damage" in words, words
                centre = HEAD._replace(end="centre", first=1)
                assert "is no journal" in refused(lambda: Journal.opened(str(path), centre, accepts=True))
                assert path.read_bytes() == changed
                Journal.opened(str(path), HEAD, accepts=True).close()
                (aside,) = [name for name in os.listdir(folder) if name != "journal"]
                assert aside.startswith("journal.cut-") and pathlib.Path(folder, aside).read_bytes() == changed
                assert kept(str(path)) == []
    state = records.records([b"journal 2 sign rules 1 description bench", *SIGN.state, *MOMENT])
    for text in (b"hello\n# more\n", b"?" + state[1:], state.replace(b"\n", b"?", 1)):
        with tempfile.TemporaryDirectory() as folder:
            path = pathlib.Path(folder, "journal")
            path.write_bytes(text)
            assert "--accept-damage" not in refused(lambda: Journal.opened(str(path), HEAD, accepts=True))
            assert path.read_bytes() == text
