"""A picture for who does not see it: its document says that it is one, and has the message's text."""

import re
from xml.sax.saxutils import escape

_WORD_OF_PROGRAM = re.compile(rb"\n<desc>[^<]*</desc>")


def said(text: bytes) -> str:
    """A message's text, with what is no printable ASCII as `\\x` and two digits."""
    return "".join(chr(octet) if 32 <= octet < 127 else f"\\x{octet:02x}" for octet in text)


def with_text(svg: bytes, text: bytes) -> bytes:
    """A document of SVG with the role of a picture, and the text in its description, behind its title. The program's
    own has there the word that the text was handed over as, in which some octets are numbers."""
    made = _WORD_OF_PROGRAM.sub(b"", svg, count=1)
    if not made.startswith(b"<svg ") or b"<desc>" in made:
        return svg
    if b' role="' not in made.partition(b">")[0]:
        made = made.replace(b"<svg ", b'<svg role="img" ', 1)
    return made.replace(b"</title>", b"</title><desc>" + escape(said(text)).encode("ascii") + b"</desc>", 1)
