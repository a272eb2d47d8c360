"""Who may press a button: the page itself, and no page of another site, though a browser of this machine shows both.

A name of another site that resolves to this machine is told by `Host`. A form or a script of another site knows no
token, and cannot read the page that has it; that the token comes in a header has a browser ask first, which nothing
here answers with yes.
"""

import hmac
import secrets
from email.message import Message

POLICY = (
    "default-src 'none'; script-src 'self'; style-src 'self'; img-src 'self'; connect-src 'self';"
    " form-action 'none'; frame-ancestors 'none'; base-uri 'none'"
)
HEADERS = {
    "Content-Security-Policy": POLICY,
    "X-Content-Type-Options": "nosniff",
    "X-Frame-Options": "DENY",
    "Referrer-Policy": "no-referrer",
    "Cross-Origin-Opener-Policy": "same-origin",
    "Cross-Origin-Resource-Policy": "same-origin",
    "Permissions-Policy": "camera=(), microphone=(), geolocation=()",
    "Cache-Control": "no-store",
}
TOKEN = "X-Token"
OF_HTTP = 80  # a port that a browser leaves out


class Guard:
    """The names of this page, and the token of this run."""

    def __init__(self, port: int) -> None:
        names = ("127.0.0.1", "localhost")
        self.hosts = {f"{name}:{port}" for name in names} | (set(names) if port == OF_HTTP else set())
        self.token = secrets.token_urlsafe(32)

    def is_of_here(self, headers: Message) -> bool:
        """Whether it is this page that is asked for."""
        found: list[str] = headers.get_all("Host", [])
        return len(found) == 1 and found[0].strip().lower() in self.hosts

    def may_press(self, headers: Message) -> bool:
        """Whether this page asks, and no other site's."""
        origin = headers.get("Origin")
        if origin is not None and origin.removeprefix("http://").lower() not in self.hosts:
            return False
        if headers.get("Sec-Fetch-Site", "same-origin") not in ("same-origin", "none"):
            return False
        return hmac.compare_digest(headers.get(TOKEN, "").encode("utf-8", "replace"), self.token.encode())
