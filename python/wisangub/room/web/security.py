"""Headers of every answer, signed cookies, and the tokens of forms."""

import hashlib
import hmac
import secrets
from urllib.parse import urlsplit

from aiohttp import web

POLICY = (
    "default-src 'none'; script-src 'self'; style-src 'self'; img-src 'self'; connect-src 'self';"
    " form-action 'self'; frame-ancestors 'none'; base-uri 'none'"
)
_HEADERS = {
    "Content-Security-Policy": POLICY,
    "X-Content-Type-Options": "nosniff",
    "X-Frame-Options": "DENY",
    "Referrer-Policy": "same-origin",
    "Cross-Origin-Opener-Policy": "same-origin",
    "Cross-Origin-Resource-Policy": "same-origin",
    "Permissions-Policy": "camera=(), microphone=(), geolocation=()",
}
_FIELD, _HEADER = "token", "X-Token"


async def prepare(_: web.Request, response: web.StreamResponse) -> None:
    """The headers of every answer; what is not said to be kept is kept nowhere."""
    response.headers.update(_HEADERS)
    response.headers["Server"] = "control"
    response.headers.setdefault("Cache-Control", "no-store")


class Seal:
    """What is signed with the key: cookies, and the tokens that belong to a cookie."""

    def __init__(self, key: bytes, is_behind_tls: bool) -> None:
        self.key, self.is_secure = key, is_behind_tls
        self.prefix = "__Host-" if is_behind_tls else ""

    def _sum(self, use: str, value: str) -> str:
        return hmac.new(self.key, _octets(f"{use} {value}"), hashlib.sha256).hexdigest()

    def set(self, response: web.StreamResponse, name: str, value: str, seconds: int) -> None:
        """A cookie with its signature: no script reads it, and no other site sends it."""
        response.set_cookie(
            self.prefix + name,
            f"{value}.{self._sum(name, value)}",
            max_age=seconds,
            path="/",
            httponly=True,
            samesite="Strict",
            secure=self.is_secure,
        )

    def get(self, request: web.Request, name: str) -> str | None:
        """What a cookie says, if it was signed here."""
        value, dot, found = request.cookies.get(self.prefix + name, "").rpartition(".")
        is_signed = bool(dot) and _is_same(found, self._sum(name, value))
        return value if is_signed else None

    def drop(self, response: web.StreamResponse, name: str) -> None:
        """Has the browser forget a cookie, in the words that it was set with: else it is not taken for that one."""
        response.set_cookie(
            self.prefix + name, "", max_age=0, path="/", httponly=True, samesite="Strict", secure=self.is_secure
        )

    def token(self, of: str) -> str:
        """The token of the forms of a cookie."""
        return self._sum("form", of)

    def confirmation(self, login: str, shown: str, nonce: str = "") -> str:
        """A word that is good for one confirmation: of what a page showed, for the log-in that it was shown to."""
        nonce = nonce or secrets.token_urlsafe(18)
        return f"{nonce}.{self._sum('confirmation', f'{nonce} {login} {shown}')}"

    def is_confirmation(self, word: str, login: str, shown: str) -> bool:
        """Whether the word was made for that."""
        nonce = word.partition(".")[0]
        return bool(nonce) and _is_same(word, self.confirmation(login, shown, nonce))

    async def is_own(self, request: web.Request, of: str) -> bool:
        """Whether a request comes from a page of ours that this cookie's holder was shown."""
        found = request.headers.get(_HEADER)
        if found is None:
            held = (await request.post()).get(_FIELD, "")
            found = held if isinstance(held, str) else ""
        return _is_same_site(request) and _is_same(found, self.token(of))


def _octets(word: str) -> bytes:
    """The octets of what was sent, though it may be no UTF-8."""
    return word.encode("utf-8", "surrogatepass")


def _is_same(sent: str, own: str) -> bool:
    """Whether what was sent is our own word, in a time that tells nothing of it."""
    return hmac.compare_digest(_octets(sent), _octets(own))


def _is_same_site(request: web.Request) -> bool:
    """Whether the browser does not say that another site's page asks."""
    origin = request.headers.get("Origin")
    try:
        is_other = origin is not None and urlsplit(origin).netloc != request.host
    except ValueError:  # no address
        is_other = True
    if is_other:
        return False
    return request.headers.get("Sec-Fetch-Site", "same-origin") in ("same-origin", "none")


def address_of(request: web.BaseRequest, is_behind_tls: bool) -> str:
    """Where a request came from. The proxy's word is the last of all lines X-Forwarded-For; what is before it the
    client's, also where the proxy adds a line of its own."""
    lines: list[str] = request.headers.getall("X-Forwarded-For", []) if is_behind_tls else []
    told = lines[-1].split(",")[-1].strip() if lines else ""
    return told or request.remote or "-"
